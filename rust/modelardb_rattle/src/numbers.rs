//! f32 to f64 exactly, and f64 to f32 by round to nearest, ties to even, proved from the bits.

use crate::ffi;

/// f32 to f64, exactly.
///
/// ```
/// assert_eq!(modelardb_rattle::widen(0.1), f64::from(0.1f32));
/// ```
pub fn widen(value: f32) -> f64 {
    f64::from_bits(widen_bits(value.to_bits()))
}

/// [`widen`] on bits; a NaN becomes 7FF8000000000000.
///
/// ```
/// assert_eq!(modelardb_rattle::widen_bits(0x3F80_0000), 0x3FF0_0000_0000_0000);
/// assert_eq!(modelardb_rattle::widen_bits(0xFFFF_FFFF), 0x7FF8_0000_0000_0000);
/// ```
pub fn widen_bits(bits: u32) -> u64 {
    ffi::widen(bits)
}

/// f64 to the nearest f32; a tie goes to the even one, and what is too large to infinity.
///
/// ```
/// assert_eq!(modelardb_rattle::narrow(0.1), 0.1f32);
/// assert_eq!(modelardb_rattle::narrow(1e300), f32::INFINITY);
/// ```
pub fn narrow(value: f64) -> f32 {
    f32::from_bits(narrow_bits(value.to_bits()))
}

/// [`narrow`] on bits; a NaN becomes 7FC00000.
///
/// ```
/// // Half way between 1 and the next f32: the even one, 1.
/// assert_eq!(modelardb_rattle::narrow_bits(0x3FF0_0000_1000_0000), 0x3F80_0000);
/// ```
pub fn narrow_bits(bits: u64) -> u32 {
    ffi::narrow(bits)
}
