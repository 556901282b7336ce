//! How the words of a state are shown: a value beside its bits.

use std::fmt::{Debug, Formatter, Result};

/// An f32 by its bits, shown as `20.5 (41A40000)`.
pub(crate) struct F32(pub u32);

/// An f64 by its bits.
pub(crate) struct F64(pub u64);

impl Debug for F32 {
    fn fmt(&self, f: &mut Formatter) -> Result {
        write!(f, "{:?} ({:08X})", f32::from_bits(self.0), self.0)
    }
}

impl Debug for F64 {
    fn fmt(&self, f: &mut Formatter) -> Result {
        write!(f, "{:?} ({:016X})", f64::from_bits(self.0), self.0)
    }
}
