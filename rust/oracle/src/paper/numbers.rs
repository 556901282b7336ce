//! Number leaves: f32 to f64 exactly, f64 to f32 by round to nearest, ties to even, both worked
//! out from the bits on whole numbers. Rust's own casts stand beside them, to be compared.

/// How a NaN is answered: "7FC00000".
pub const NAN_32: u32 = 0x7FC0_0000;
/// "A NaN widens to 7FF8000000000000".
pub const NAN_64: u64 = 0x7FF8_0000_0000_0000;

/// The widths of a binary format of IEEE 754.
struct Format {
    fraction: u32,
    exponent: u32,
}

const BINARY32: Format = Format {
    fraction: 23,
    exponent: 8,
};
const BINARY64: Format = Format {
    fraction: 52,
    exponent: 11,
};

impl Format {
    /// The pattern of +infinity: all exponent bits set, no fraction bit.
    fn infinity(&self) -> u64 {
        ((1 << self.exponent) - 1) << self.fraction
    }

    /// The power of two of the least subnormal's bit.
    fn least_power(&self) -> i32 {
        2 - (1 << (self.exponent - 1)) - self.fraction as i32
    }

    fn sign_bit(&self) -> u64 {
        1 << (self.fraction + self.exponent)
    }
}

/// What a pattern stands for; a finite one is ± whole × 2^power.
enum Number {
    Nan,
    Infinite,
    Finite { whole: u64, power: i32 },
}

/// What the pattern stands for, its sign left aside.
fn number_of(format: &Format, bits: u64) -> Number {
    let magnitude = bits & (format.sign_bit() - 1);
    let exponent = (magnitude >> format.fraction) as i32;
    let fraction = magnitude & ((1 << format.fraction) - 1);
    if magnitude > format.infinity() {
        Number::Nan
    } else if magnitude == format.infinity() {
        Number::Infinite
    } else if exponent == 0 {
        Number::Finite {
            whole: fraction,
            power: format.least_power(),
        }
    } else {
        Number::Finite {
            whole: (1 << format.fraction) + fraction,
            power: format.least_power() + exponent - 1,
        }
    }
}

/// whole × 2^shift as a whole number, to the nearest, ties to even.
fn nearest_even(whole: u64, shift: i32) -> u64 {
    if shift >= 0 {
        return whole << shift;
    }
    if shift < -63 {
        return 0; // Under half, since whole is below 2^53.
    }
    let (floor, rest) = (whole >> -shift, whole & ((1 << -shift) - 1));
    let half = 1 << (-shift - 1);
    let up = rest > half || (rest == half && floor % 2 == 1);
    floor + u64::from(up)
}

/// The pattern nearest to whole × 2^power: the bit of least weight that the format can hold there
/// decides where to round, and one sum gives the pattern, also where rounding reaches the next
/// power of two. Too large is infinity.
fn round(format: &Format, whole: u64, power: i32) -> u64 {
    if whole == 0 {
        return 0;
    }
    let length = 64 - whole.leading_zeros() as i32;
    let weight = (power + length - (format.fraction as i32 + 1)).max(format.least_power());
    let rounded = nearest_even(whole, power - weight);
    let pattern = (((weight - format.least_power()) as u64) << format.fraction) + rounded;
    pattern.min(format.infinity())
}

/// From one format to the other, a NaN to the one given.
fn convert(from: &Format, to: &Format, bits: u64, nan: u64) -> u64 {
    let magnitude = match number_of(from, bits) {
        Number::Nan => return nan,
        Number::Infinite => to.infinity(),
        Number::Finite { whole, power } => round(to, whole, power),
    };
    let negative = bits & from.sign_bit() != 0;
    if negative {
        magnitude | to.sign_bit()
    } else {
        magnitude
    }
}

/// f32 to f64 exactly.
pub fn widen(bits: u32) -> u64 {
    convert(&BINARY32, &BINARY64, u64::from(bits), NAN_64)
}

/// f64 to f32, to nearest, ties to even, with overflow to infinity and subnormals.
pub fn narrow(bits: u64) -> u32 {
    convert(&BINARY64, &BINARY32, bits, u64::from(NAN_32)) as u32
}

/// [`widen`] by the machine.
pub fn widen_by_cast(bits: u32) -> u64 {
    bits_of_f64(f64::from(f32::from_bits(bits)))
}

/// [`narrow`] by the machine.
pub fn narrow_by_cast(bits: u64) -> u32 {
    bits_of_f32(f64::from_bits(bits) as f32)
}

/// The bits of a computed f32; a NaN's are 7FC00000.
pub fn bits_of_f32(value: f32) -> u32 {
    if value.is_nan() {
        NAN_32
    } else {
        value.to_bits()
    }
}

/// The bits of a computed f64; a NaN's are 7FF8000000000000.
pub fn bits_of_f64(value: f64) -> u64 {
    if value.is_nan() {
        NAN_64
    } else {
        value.to_bits()
    }
}

/// A value's bits with every NaN as 7FC00000.
pub fn canonical(bits: u32) -> u32 {
    bits_of_f32(f32::from_bits(bits))
}

/// The f64 of a value's bits.
pub fn wide(bits: u32) -> f64 {
    f64::from_bits(widen(bits))
}

/// The bits of an f64 rounded to f32.
pub fn rounded(value: f64) -> u32 {
    narrow(value.to_bits())
}
