//! How large a stream can get (document 02, "How large can a night get"), and lists that get so large.

use super::macaque_v::Opening;
use super::{Answer, judge_count};

/// "Without a first value, n values with n at least 1 take at most 44 × n + 1 bits; with a first value, 32 bits
/// for n = 1 and at most 32 + 44 × (n − 1) + 1 above that"; "0 for n = 0". Refusals: 3.
pub fn most_bits(count: usize, opening: Opening) -> Answer<usize> {
    judge_count(count)?;
    Ok(match (opening, count) {
        (_, 0) => 0,
        (Opening::On(_), n) => 44 * n + 1,
        (Opening::WithFirst, 1) => 32,
        (Opening::WithFirst, n) => 32 + 44 * (n - 1) + 1,
    })
}

/// "That many bits, rounded up to bytes". Refusals: 3.
pub fn most_bytes(count: usize, opening: Opening) -> Answer<usize> {
    most_bits(count, opening).map(|bits| bits.div_ceil(8))
}

/// What the values of [`largest`] differ by from the one before, in turn. Each sets a window of 31 bits, in 44,
/// which the other does not fit into.
const IN_TURN: [u32; 2] = [0x4000_0001, 0x8000_0002];

/// What the last one differs by: it fits into neither window, and takes 45 bits.
const AT_LAST: u32 = 0x8000_0001;

/// "For lossless streams show for each n a list that reaches the bound."
pub fn largest(count: usize, opening: Opening) -> Vec<u32> {
    let (mut values, mut value) = match opening {
        Opening::WithFirst => (vec![0; count.min(1)], 0),
        Opening::On(value) => (vec![], value),
    };
    while values.len() < count {
        value ^= match values.len() + 1 {
            length if length == count => AT_LAST,
            length => IN_TURN[length % 2],
        };
        values.push(value);
    }
    values
}
