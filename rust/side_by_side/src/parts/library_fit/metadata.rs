//! Sizes of the metadata, allowed and not.

use oracle::paper::MOST_METADATA;
use oracle::paper::refusal::LIMIT;

/// The greatest that is allowed.
pub const MOST: usize = MOST_METADATA as usize;

/// Both limits and what lies beyond them, a size that is used, and two that are too large for 32 bits.
pub const SIZES: [usize; 10] = [
    0,
    1,
    2,
    12,
    255,
    MOST - 1,
    MOST,
    MOST + 1,
    (1 << 32) + 1,
    usize::MAX,
];

pub fn is_allowed(m: usize) -> bool {
    (1..=MOST).contains(&m)
}

/// Each of the sizes, and 3 where it is out of its limits.
pub fn judged() -> [(usize, u32); SIZES.len()] {
    SIZES.map(|m| (m, if is_allowed(m) { 0 } else { LIMIT }))
}
