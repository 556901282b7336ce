//! What the port is compared with, three ways: [`paper`] is document 01 as a plain program of our
//! own, with the requests of 02 or as it first was; `published` is the Rust's own text and `filled` the same
//! with 01's bodies, both built only where the text is at hand: [`builds`] lists them, and [`rust`] says what
//! each can be asked.

pub mod builds;
pub mod faults;
pub mod paper;
pub mod rust;

#[cfg(text_at_hand)]
mod filled;
#[cfg(text_at_hand)]
mod published;
#[cfg(text_at_hand)]
mod stand_in;
