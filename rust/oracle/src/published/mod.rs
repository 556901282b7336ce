//! The Rust's own text as it was published.
#![allow(clippy::all, dead_code, unused_imports)]

#[path = "../calls.rs"]
mod calls;
#[path = "../direct.rs"]
mod direct;
mod text;

pub const CALLS: crate::rust::Calls = calls::named("published");
