//! The builds of the Rust's text at hand: `filled` and `published`, or none.

use crate::rust::Calls;

#[cfg(text_at_hand)]
pub static AT_HAND: &[Calls] = &[crate::filled::CALLS, crate::published::CALLS];

#[cfg(not(text_at_hand))]
pub static AT_HAND: &[Calls] = &[];

/// Whether the text's debug assertions stand in these builds, and its sums are checked, as in cargo's debug
/// profile.
pub const ARE_DEBUG: bool = cfg!(debug_assertions);
