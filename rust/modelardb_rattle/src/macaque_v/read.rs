//! Reading a stream: its values, and their sum.

use super::Opening;
use crate::{Refusal, ffi};

/// Draws the values of a stream, `count` of them, into the first places of `out`. A refusal leaves
/// `out` as it was: the values wait on the stack until the whole stream is found right, which takes
/// 5 KiB for each 1,024 of them, so up to 320 KiB.
///
/// # Errors
///
/// [`Refusal::OverLimit`] for a count above 65,536; [`Refusal::OutputTooShort`]; then what is wrong with
/// the stream and where: [`Refusal::EndsEarly`], [`Refusal::NoWindow`], [`Refusal::WindowNotAllowed`] or
/// [`Refusal::Leftover`].
///
/// ```
/// use modelardb_rattle::{Opening, Refusal, macaque_v};
///
/// let case_b = [0x3F, 0x80, 0x00, 0x00, 0xB0, 0x91, 0xFE, 0xFF];
/// let mut out = [9.0; 5];
/// macaque_v::grid(&case_b, 4, Opening::First, &mut out)?;
/// assert_eq!(out, [1.0, 1.0, 2.0, 1.0, 9.0]);
///
/// let refused = macaque_v::grid(&case_b, 5, Opening::First, &mut out);
/// assert_eq!(refused, Err(Refusal::EndsEarly { value: 4, place: 64 }));
/// # Ok::<(), Refusal>(())
/// ```
pub fn grid(bytes: &[u8], count: usize, opening: Opening, out: &mut [f32]) -> Result<(), Refusal> {
    grid_bits(bytes, count, opening, ffi::as_bits_mut(out))
}

/// [`grid`] on the values' bits.
///
/// # Errors
///
/// Those of [`grid`].
pub fn grid_bits(
    bytes: &[u8],
    count: usize,
    opening: Opening,
    out: &mut [u32],
) -> Result<(), Refusal> {
    Refusal::judge(ffi::macaque_v_grid(bytes, count, opening.words(), out))
}

/// The sum of the values of a stream, `count` of them, in f32 from the left.
///
/// # Errors
///
/// Those of [`grid`], but for [`Refusal::OutputTooShort`].
///
/// ```
/// use modelardb_rattle::{Opening, Refusal, macaque_v};
///
/// let case_a = [0x3F, 0x80, 0x00, 0x00, 0xB0, 0x91, 0xFE];
/// assert_eq!(macaque_v::sum(&case_a, 3, Opening::First), Ok(4.0));
/// assert_eq!(macaque_v::sum(&[0xA0], 2, Opening::On(1.0)), Ok(2.0));
/// let refused = macaque_v::sum(&[0xA0], 1, Opening::On(1.0));
/// assert_eq!(refused, Err(Refusal::Leftover { value: 1, place: 2 }));
/// ```
pub fn sum(bytes: &[u8], count: usize, opening: Opening) -> Result<f32, Refusal> {
    sum_bits(bytes, count, opening).map(f32::from_bits)
}

/// The bits of [`sum`]; a NaN is answered as 7FC00000.
///
/// # Errors
///
/// Those of [`sum`].
pub fn sum_bits(bytes: &[u8], count: usize, opening: Opening) -> Result<u32, Refusal> {
    let mut out = [0];
    Refusal::judge(ffi::macaque_v_sum(bytes, count, opening.words(), &mut out))?;
    Ok(out[0])
}
