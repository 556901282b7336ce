//! The Rust's own text with document 01's bodies where 01 says "fixed here".
#![allow(clippy::all, dead_code, unused_imports)]

#[path = "../calls.rs"]
mod calls;
#[path = "../direct.rs"]
mod direct;
mod text;

pub const CALLS: crate::rust::Calls = calls::named("filled");
