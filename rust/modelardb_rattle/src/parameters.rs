//! Parameter bytes: what a segment stores of its model. A value that is the segment's least or greatest
//! one costs no byte of its own.
//!
//! A model's parameters come back bit for bit; every NaN counts as 7FC00000, so payloads do not matter
//! here. The calls on bits are for values that are kept as bits.

use crate::{Refusal, ffi};

/// Writes PMC-Mean's parameter bytes to the front of `out`, and answers how many they are: none, 1 or 4.
/// The residuals' least and greatest value are both NaN where there are none. A refusal leaves `out` as
/// it was.
///
/// # Errors
///
/// [`Refusal::OutputTooShort`].
///
/// ```
/// use modelardb_rattle::Refusal;
/// use modelardb_rattle::parameters::encode_values_for_pmc_mean;
///
/// let mut out = [9; 4];
/// // The segment's greatest value is the model's: one byte says so.
/// assert_eq!(encode_values_for_pmc_mean(5.0, 4.0, 5.0, &mut out), Ok(1));
/// assert_eq!(out, [1, 9, 9, 9]);
/// // The residuals lie on both sides of it: the value itself.
/// assert_eq!(encode_values_for_pmc_mean(5.0, 4.0, 6.0, &mut out), Ok(4));
/// assert_eq!(out, 5f32.to_le_bytes());
/// // No residuals: the segment's least value is the model's, and that needs no byte.
/// assert_eq!(encode_values_for_pmc_mean(5.0, f32::NAN, f32::NAN, &mut out), Ok(0));
///
/// let refused = encode_values_for_pmc_mean(5.0, 4.0, 6.0, &mut out[..3]);
/// assert_eq!(refused, Err(Refusal::OutputTooShort));
/// ```
pub fn encode_values_for_pmc_mean(
    value: f32,
    residuals_min_value: f32,
    residuals_max_value: f32,
    out: &mut [u8],
) -> Result<usize, Refusal> {
    let [min, max] = [residuals_min_value, residuals_max_value].map(f32::to_bits);
    encode_values_for_pmc_mean_bits(value.to_bits(), min, max, out)
}

/// [`encode_values_for_pmc_mean`] on bits.
///
/// # Errors
///
/// [`Refusal::OutputTooShort`].
pub fn encode_values_for_pmc_mean_bits(
    value: u32,
    residuals_min_value: u32,
    residuals_max_value: u32,
    out: &mut [u8],
) -> Result<usize, Refusal> {
    let residuals = (residuals_min_value, residuals_max_value);
    let mut row = [0];
    let fault = ffi::encode_values_for_pmc_mean(value, residuals, out, &mut row);
    Refusal::judge(fault)?;
    Ok(row[0] as usize)
}

/// Writes Swing's parameter bytes to the front of `out`, and answers how many they are: none, 1, 5 or 8.
/// The residuals' least and greatest value are both NaN where there are none. A refusal leaves `out` as
/// it was.
///
/// # Errors
///
/// [`Refusal::OutputTooShort`].
///
/// ```
/// use modelardb_rattle::parameters::encode_values_for_swing;
///
/// // A line that falls from 2 to 1, with residuals from 1 to 3: its last value is the least of all,
/// // and its first is stored behind a flag.
/// let mut out = [9; 8];
/// assert_eq!(encode_values_for_swing(2.0, 1.0, 1.0, 3.0, &mut out), Ok(5));
/// assert_eq!(out, [3, 0, 0, 0, 0x40, 9, 9, 9]);
/// ```
pub fn encode_values_for_swing(
    first_value: f32,
    last_value: f32,
    residuals_min_value: f32,
    residuals_max_value: f32,
    out: &mut [u8],
) -> Result<usize, Refusal> {
    let [first, last] = [first_value, last_value].map(f32::to_bits);
    let [min, max] = [residuals_min_value, residuals_max_value].map(f32::to_bits);
    encode_values_for_swing_bits(first, last, min, max, out)
}

/// [`encode_values_for_swing`] on bits.
///
/// # Errors
///
/// [`Refusal::OutputTooShort`].
pub fn encode_values_for_swing_bits(
    first_value: u32,
    last_value: u32,
    residuals_min_value: u32,
    residuals_max_value: u32,
    out: &mut [u8],
) -> Result<usize, Refusal> {
    let ends = (first_value, last_value);
    let residuals = (residuals_min_value, residuals_max_value);
    let mut row = [0];
    let fault = ffi::encode_values_for_swing(ends, residuals, out, &mut row);
    Refusal::judge(fault)?;
    Ok(row[0] as usize)
}

/// The value that PMC-Mean's parameter bytes give with the segment's least and greatest value.
///
/// # Errors
///
/// [`Refusal::FormNotAllowed`] for other than 0, 1 or 4 bytes.
///
/// ```
/// use modelardb_rattle::Refusal;
/// use modelardb_rattle::parameters::decode_values_for_pmc_mean;
///
/// assert_eq!(decode_values_for_pmc_mean(4.0, 6.0, &[]), Ok(4.0));
/// assert_eq!(decode_values_for_pmc_mean(4.0, 6.0, &[1]), Ok(6.0));
/// assert_eq!(decode_values_for_pmc_mean(4.0, 6.0, &5f32.to_le_bytes()), Ok(5.0));
/// assert_eq!(decode_values_for_pmc_mean(4.0, 6.0, &[1, 2]), Err(Refusal::FormNotAllowed));
/// ```
pub fn decode_values_for_pmc_mean(
    min_value: f32,
    max_value: f32,
    values: &[u8],
) -> Result<f32, Refusal> {
    let [min, max] = [min_value, max_value].map(f32::to_bits);
    decode_values_for_pmc_mean_bits(min, max, values).map(f32::from_bits)
}

/// [`decode_values_for_pmc_mean`] on bits; a NaN is answered as 7FC00000.
///
/// # Errors
///
/// Those of [`decode_values_for_pmc_mean`].
pub fn decode_values_for_pmc_mean_bits(
    min_value: u32,
    max_value: u32,
    values: &[u8],
) -> Result<u32, Refusal> {
    let (segment, mut out) = ((min_value, max_value), [0]);
    let fault = ffi::decode_values_for_pmc_mean(segment, values, &mut out);
    Refusal::judge(fault)?;
    Ok(out[0])
}

/// The first and the last value that Swing's parameter bytes give with the segment's least and greatest
/// value.
///
/// # Errors
///
/// [`Refusal::FormNotAllowed`] for other than 0, 1, 5 or 8 bytes, and for 5 with a flag above 3.
///
/// ```
/// use modelardb_rattle::Refusal;
/// use modelardb_rattle::parameters::decode_values_for_swing;
///
/// assert_eq!(decode_values_for_swing(1.0, 3.0, &[]), Ok((1.0, 3.0)));
/// assert_eq!(decode_values_for_swing(1.0, 3.0, &[3, 0, 0, 0, 0x40]), Ok((2.0, 1.0)));
/// // There is no flag 4.
/// let refused = decode_values_for_swing(1.0, 3.0, &[4, 0, 0, 0, 0x40]);
/// assert_eq!(refused, Err(Refusal::FormNotAllowed));
/// ```
pub fn decode_values_for_swing(
    min_value: f32,
    max_value: f32,
    values: &[u8],
) -> Result<(f32, f32), Refusal> {
    let [min, max] = [min_value, max_value].map(f32::to_bits);
    let (first, last) = decode_values_for_swing_bits(min, max, values)?;
    Ok((f32::from_bits(first), f32::from_bits(last)))
}

/// [`decode_values_for_swing`] on bits; a NaN is answered as 7FC00000.
///
/// # Errors
///
/// Those of [`decode_values_for_swing`].
pub fn decode_values_for_swing_bits(
    min_value: u32,
    max_value: u32,
    values: &[u8],
) -> Result<(u32, u32), Refusal> {
    let (segment, mut out) = ((min_value, max_value), [0; 2]);
    Refusal::judge(ffi::decode_values_for_swing(segment, values, &mut out))?;
    Ok((out[0], out[1]))
}
