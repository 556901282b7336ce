//! Bits in bytes: "Bits fill a byte from the top". One bit at a time.

/// The `count` lowest bits of `value`, the highest of them first.
pub fn field(value: u32, count: u32) -> Vec<bool> {
    (0..count).rev().map(|i| (value >> i) & 1 == 1).collect()
}

/// The number that bits stand for, the highest first.
pub fn number(bits: &[bool]) -> u32 {
    bits.iter().fold(0, |n, &bit| 2 * n + u32::from(bit))
}

/// The bit at a place, counted from the top of the first byte.
pub fn get(bytes: &[u8], place: usize) -> bool {
    (bytes[place / 8] >> (7 - place % 8)) & 1 == 1
}

/// Sets the bit at a place.
pub fn put(bytes: &mut [u8], place: usize, bit: bool) {
    let mask = 1 << (7 - place % 8);
    if bit {
        bytes[place / 8] |= mask;
    } else {
        bytes[place / 8] &= !mask;
    }
}

/// Zeroes the bits from `place` on in a byte that the place cuts, and nothing else.
pub fn cut(bytes: &mut [u8], place: usize) {
    for rest in place..place.next_multiple_of(8) {
        put(bytes, rest, false);
    }
}
