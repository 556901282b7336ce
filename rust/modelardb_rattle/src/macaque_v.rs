//! MacaqueV: a stream of values, each coded by how it differs from the last one that was kept. The
//! writer works in a buffer that it is lent; [`grid`] and [`sum`] read a stream's bytes, and a
//! [`Reader`] goes through them value by value.

mod read;
mod reader;
mod size;

use crate::ffi::{self, STATE_WORDS, Words};
use crate::shown::F32;
use crate::{ErrorBound, Refusal};
use std::fmt::{self, Debug, Formatter};

pub use read::{grid, grid_bits, sum, sum_bits};
pub use reader::{Reader, last_value, last_value_bits};

/// How a stream opens.
#[derive(Clone, Copy, Debug, PartialEq)]
pub enum Opening {
    /// Its first value is stored in full.
    First,
    /// It goes on from a value that is kept elsewhere.
    On(f32),
}

impl Opening {
    /// On the value of these bits, a NaN's payload included.
    ///
    /// ```
    /// use modelardb_rattle::Opening;
    /// assert_eq!(Opening::on_bits(0x3F80_0000), Opening::On(1.0));
    /// ```
    pub fn on_bits(bits: u32) -> Self {
        Opening::On(f32::from_bits(bits))
    }

    /// The case as a number, and the value's bits.
    pub(crate) fn words(self) -> Words {
        match self {
            Opening::First => (0, 0),
            Opening::On(value) => (1, value.to_bits()),
        }
    }
}

/// The writer of a stream: what it knows of the values behind it. Their bytes stand in the buffer
/// that each call is lent, the same one or a copy.
///
/// A stream keeps for each value one that is within the bound of it, lossless the value itself, bit for
/// bit, odd NaNs and both zeros included. It holds neither its count nor a checksum: keep the count
/// beside the bytes, and let what carries them see that they arrive unaltered.
///
/// Two of the paper's marked cases, and an upload that is cut at a value and goes on as if it had
/// never stopped:
///
/// ```
/// use modelardb_rattle::{ErrorBound, MacaqueV, Opening, Refusal};
///
/// let mut buffer = [0; 64];
/// let mut writer = MacaqueV::new(ErrorBound::Lossless, Opening::First)?;
/// writer.compress_values(&[1.0, 1.0, 2.0], &mut buffer)?;
/// let case_a = [0x3F, 0x80, 0x00, 0x00, 0xB0, 0x91, 0xFE];
/// assert_eq!(buffer[..writer.bytes_used()], case_a);
///
/// writer.compress_values(&[1.0], &mut buffer)?;
/// let case_b = [0x3F, 0x80, 0x00, 0x00, 0xB0, 0x91, 0xFE, 0xFF];
/// assert_eq!(buffer[..writer.bytes_used()], case_b);
/// assert_eq!((writer.length(), writer.place()), (4, 64));
/// # Ok::<(), Refusal>(())
/// ```
///
/// ```
/// use modelardb_rattle::{ErrorBound, MacaqueV, Opening, Refusal};
///
/// let readings = [20.5, 20.6, 20.4, 21.0, 23.5, 23.5, 19.0];
/// let bound = ErrorBound::Absolute(0.2);
/// let mut in_one_run = [0; 64];
/// let mut writer = MacaqueV::new(bound, Opening::First)?;
/// writer.compress_values(&readings, &mut in_one_run)?;
///
/// // The link broke after five readings, of which three are known to have arrived.
/// let mut resumed = [0; 64];
/// let mut broken = MacaqueV::new(bound, Opening::First)?;
/// broken.compress_values(&readings[..5], &mut resumed)?;
/// let used = broken.bytes_used();
/// let mut on = MacaqueV::reopen(&mut resumed, used, 5, 3, Opening::First, bound)?;
/// on.compress_values(&readings[3..], &mut resumed)?;
///
/// assert_eq!(on, writer);
/// let used = writer.bytes_used();
/// assert_eq!(resumed[..used], in_one_run[..used]);
/// # Ok::<(), Refusal>(())
/// ```
#[derive(Clone, PartialEq, Eq)]
pub struct MacaqueV {
    /// The state as it crosses the C face: see [`STATE_WORDS`].
    pub(crate) row: [u64; STATE_WORDS],
}

impl MacaqueV {
    /// The most values of a stream.
    pub const MOST_VALUES: usize = 65_536;

    /// The most residuals of a segment.
    pub const MOST_RESIDUALS: usize = 255;

    /// The leading zero bits of the window before any is set.
    pub const OPENING_LEADING: u32 = 255;

    /// The trailing zero bits of the window before any is set.
    pub const OPENING_TRAILING: u32 = 0;

    /// The writer before any value.
    ///
    /// # Errors
    ///
    /// [`Refusal::BoundNotAllowed`].
    ///
    /// ```
    /// use modelardb_rattle::{ErrorBound, MacaqueV, Opening, Refusal};
    ///
    /// let refused = MacaqueV::new(ErrorBound::Relative(0.0), Opening::First);
    /// assert_eq!(refused, Err(Refusal::BoundNotAllowed));
    /// ```
    pub fn new(error_bound: ErrorBound, opening: Opening) -> Result<Self, Refusal> {
        let mut row = [0; STATE_WORDS];
        let fault = ffi::macaque_v_new(error_bound.words(), opening.words(), &mut row);
        Refusal::judge(fault).map(|()| Self { row })
    }

    /// The writer behind the first `k` of the `count` values in the buffer's first `used` bytes. The
    /// whole stream is checked first; then the bits behind those values are zeroed in the byte that
    /// they end in. A refusal leaves the buffer as it was. Of a stream that did not arrive whole,
    /// [`MacaqueV::rescue`] gives the writer behind what did.
    ///
    /// # Errors
    ///
    /// [`Refusal::BoundNotAllowed`]; [`Refusal::OverLimit`] for a count above 65,536;
    /// [`Refusal::CountsDisagree`] for a `k` above the count, or a `used` above the buffer's length; then
    /// what is wrong with the stream and where, whatever `k` is: [`Refusal::EndsEarly`],
    /// [`Refusal::NoWindow`], [`Refusal::WindowNotAllowed`] or [`Refusal::Leftover`].
    ///
    /// ```
    /// use modelardb_rattle::{ErrorBound, MacaqueV, Opening, Refusal};
    ///
    /// // 1.0, 1.0, 2.0, of which the last is to be another.
    /// let (first, lossless) = (Opening::First, ErrorBound::Lossless);
    /// let mut buffer = [0x3F, 0x80, 0x00, 0x00, 0xB0, 0x91, 0xFE];
    /// let writer = MacaqueV::reopen(&mut buffer, 7, 3, 2, first, lossless)?;
    /// assert_eq!((writer.length(), writer.place()), (2, 34));
    /// assert_eq!(buffer[..writer.bytes_used()], [0x3F, 0x80, 0x00, 0x00, 0x80]);
    /// # Ok::<(), Refusal>(())
    /// ```
    pub fn reopen(
        buffer: &mut [u8],
        used: usize,
        count: usize,
        k: usize,
        opening: Opening,
        error_bound: ErrorBound,
    ) -> Result<Self, Refusal> {
        let (opening, bound) = (opening.words(), error_bound.words());
        let mut row = [0; STATE_WORDS];
        let fault = ffi::macaque_v_reopen(buffer, used, (count, k), opening, bound, &mut row);
        Refusal::judge(fault).map(|()| Self { row })
    }

    /// The writer behind whatever arrived of a stream, to go on from there. Of the buffer's first `used` bytes it
    /// keeps the values whose bits are all there, `limit` of them at most; [`length`](MacaqueV::length) says how many
    /// these are. The bits behind them are zeroed in the byte that they end in, and no other byte changes. What remains
    /// there, a value that is cut, stale bits or further bytes, is no refusal. A refusal leaves the buffer as it was.
    ///
    /// `used` is how many bytes arrived, not how long the buffer is: zeros behind them may be read as values.
    /// **Give as the limit how many values the bytes that were sent hold**, not how many the night will have. Then
    /// of a stream that was cut at any byte the values are kept that arrived whole, the writer is the one that had
    /// written these, and what is written on has the bytes and the state of one run. Where a value is missing, every
    /// limit from the number kept on answers the same. Where none is, a larger limit may take the padding of the last
    /// byte for a value, or for damage.
    ///
    /// It cannot see that bytes are missing in between, or were changed, unless the codes no longer come out: let a
    /// checksum say first that what arrived is the beginning of what was sent. And go on with the values as they were
    /// measured, not with the rest of the old bytes, since the first bits of a value that is cut may be gone then: keep
    /// a copy where those may come.
    ///
    /// # Errors
    ///
    /// [`Refusal::BoundNotAllowed`]; [`Refusal::OverLimit`] for a limit above 65,536; [`Refusal::CountsDisagree`] for
    /// a `used` above the buffer's length; then [`Refusal::NoWindow`] or [`Refusal::WindowNotAllowed`], with the place,
    /// where the bytes hold what no writer makes: damage, or a limit above the count.
    ///
    /// ```
    /// use modelardb_rattle::{ErrorBound, MacaqueV, Opening, Refusal};
    ///
    /// // Of 1.0, 1.0, 2.0 six bytes arrived; what stands behind them is of another day.
    /// let (first, lossless) = (Opening::First, ErrorBound::Lossless);
    /// let mut buffer = [0x3F, 0x80, 0x00, 0x00, 0xB0, 0x91, 0x55, 0x55];
    /// let mut writer = MacaqueV::rescue(&mut buffer, 6, 3, first, lossless)?;
    /// // Two values are there, in 34 bits, and the third is sent again.
    /// assert_eq!((writer.length(), writer.place()), (2, 34));
    /// writer.compress_values(&[2.0], &mut buffer)?;
    /// let case_a = [0x3F, 0x80, 0x00, 0x00, 0xB0, 0x91, 0xFE];
    /// assert_eq!(buffer[..writer.bytes_used()], case_a);
    ///
    /// // A byte that holds one value: with a larger limit its padding is read too.
    /// let rescue = |limit| MacaqueV::rescue(&mut [0x80], 1, limit, Opening::On(1.0), lossless);
    /// assert_eq!(rescue(1)?.length(), 1);
    /// assert_eq!(rescue(2), Err(Refusal::NoWindow { value: 1, place: 2 }));
    /// # Ok::<(), Refusal>(())
    /// ```
    pub fn rescue(
        buffer: &mut [u8],
        used: usize,
        limit: usize,
        opening: Opening,
        error_bound: ErrorBound,
    ) -> Result<Self, Refusal> {
        let (opening, bound) = (opening.words(), error_bound.words());
        let mut row = [0; STATE_WORDS];
        let fault = ffi::macaque_v_rescue(buffer, used, limit, opening, bound, &mut row);
        Refusal::judge(fault).map(|()| Self { row })
    }

    /// Writes the values behind those that stand in the buffer. No values change nothing. A refusal
    /// leaves the writer and the buffer as they were.
    ///
    /// # Errors
    ///
    /// [`Refusal::StateNotAllowed`] where the buffer is shorter than the stream that stands there;
    /// [`Refusal::OverLimit`] for more than 65,536 values in all; [`Refusal::OutputTooShort`] where the
    /// buffer has no room for these: [`MacaqueV::most_bytes`] says how long one always has.
    ///
    /// ```
    /// use modelardb_rattle::{ErrorBound, MacaqueV, Opening, Refusal};
    ///
    /// let mut writer = MacaqueV::new(ErrorBound::Lossless, Opening::First)?;
    /// let (before, mut buffer) = (writer.clone(), [7; 4]);
    /// let refused = writer.compress_values(&[1.0, 2.0], &mut buffer);
    /// assert_eq!(refused, Err(Refusal::OutputTooShort));
    /// assert_eq!((writer, buffer), (before, [7; 4]));
    /// # Ok::<(), Refusal>(())
    /// ```
    pub fn compress_values(&mut self, values: &[f32], buffer: &mut [u8]) -> Result<(), Refusal> {
        self.compress_values_bits(ffi::as_bits(values), buffer)
    }

    /// [`MacaqueV::compress_values`] on the values' bits.
    ///
    /// # Errors
    ///
    /// Those of [`MacaqueV::compress_values`].
    ///
    /// ```
    /// use modelardb_rattle::{ErrorBound, MacaqueV, Opening, Refusal, macaque_v};
    ///
    /// // Lossless, a NaN's payload comes back too.
    /// let odd = [0x7FC1_2345, 0xFFFF_FFFF, 0x7F80_0001];
    /// let (mut buffer, mut out) = ([0; 32], [0; 3]);
    /// let mut writer = MacaqueV::new(ErrorBound::Lossless, Opening::on_bits(0x7FC0_0000))?;
    /// writer.compress_values_bits(&odd, &mut buffer)?;
    /// let bytes = &buffer[..writer.bytes_used()];
    /// macaque_v::grid_bits(bytes, 3, Opening::on_bits(0x7FC0_0000), &mut out)?;
    /// assert_eq!(out, odd);
    /// # Ok::<(), Refusal>(())
    /// ```
    pub fn compress_values_bits(
        &mut self,
        values: &[u32],
        buffer: &mut [u8],
    ) -> Result<(), Refusal> {
        Refusal::judge(ffi::macaque_v_compress_values(
            &mut self.row,
            values,
            buffer,
        ))
    }

    /// How far a kept value may be from its input.
    pub fn error_bound(&self) -> ErrorBound {
        ErrorBound::in_row(&self.row)
    }

    /// The least value kept, NaN before any. Gaps (NaN) are passed over.
    pub fn min_value(&self) -> f32 {
        f32::from_bits(self.min_value_bits())
    }

    /// The bits of [`MacaqueV::min_value`].
    pub fn min_value_bits(&self) -> u32 {
        self.bits(2)
    }

    /// The greatest value kept, NaN before any. Gaps (NaN) are passed over.
    pub fn max_value(&self) -> f32 {
        f32::from_bits(self.max_value_bits())
    }

    /// The bits of [`MacaqueV::max_value`].
    pub fn max_value_bits(&self) -> u32 {
        self.bits(3)
    }

    /// The last value kept; before any, the one that the stream opens on, or +0.
    pub fn last_value(&self) -> f32 {
        f32::from_bits(self.last_value_bits())
    }

    /// The bits of [`MacaqueV::last_value`].
    pub fn last_value_bits(&self) -> u32 {
        self.bits(4)
    }

    /// The leading zero bits of the window that was set last.
    pub fn last_leading_zero_bits(&self) -> u32 {
        self.bits(5)
    }

    /// The trailing zero bits of the window that was set last.
    pub fn last_trailing_zero_bits(&self) -> u32 {
        self.bits(6)
    }

    /// Whether the first value is stored in full.
    pub fn with_first(&self) -> bool {
        self.row[7] == 1
    }

    /// How many bits are written.
    pub fn place(&self) -> usize {
        self.row[8] as usize
    }

    /// How many bytes of the buffer the stream takes. While it is written only the first `place() / 8` of them are
    /// final: the next value still changes the one behind them.
    pub fn bytes_used(&self) -> usize {
        self.place().div_ceil(8)
    }

    /// How many values are written.
    pub fn length(&self) -> usize {
        self.row[9] as usize
    }

    /// The sum of the kept values, added from the left in f32: what [`sum`] answers on the stream's bytes, without
    /// reading them. +0 before any value; a first value that is stored in full begins it, −0 too. A writer that was cut
    /// and reopened has the sum of the values that it stands behind.
    ///
    /// Once a gap (NaN) is kept it is NaN to the end of the stream, and beyond the greatest f32 it is an infinity.
    ///
    /// ```
    /// use modelardb_rattle::{ErrorBound, MacaqueV, Opening, Refusal, macaque_v};
    ///
    /// let mut buffer = [0; 64];
    /// let mut writer = MacaqueV::new(ErrorBound::Absolute(0.5), Opening::First)?;
    /// writer.compress_values(&[20.0, 20.25, 23.0], &mut buffer)?;
    /// // The second reading is kept as the first.
    /// assert_eq!((writer.sum(), writer.mean()), (63.0, Some(21.0)));
    /// let bytes = &buffer[..writer.bytes_used()];
    /// assert_eq!(writer.sum(), macaque_v::sum(bytes, writer.length(), Opening::First)?);
    /// # Ok::<(), Refusal>(())
    /// ```
    pub fn sum(&self) -> f32 {
        f32::from_bits(self.sum_bits())
    }

    /// The bits of [`MacaqueV::sum`], 7FC00000 for a NaN.
    pub fn sum_bits(&self) -> u32 {
        self.bits(10)
    }

    /// The mean of the kept values, `None` before any: [`MacaqueV::sum`] divided by the length, in f64. The sum itself
    /// is rounded to f32 after each value, as document 01 has it: of readings of one sign the mean is off by at most
    /// about length / 2^24 of itself, 0.002 % for 288 readings and 0.4 % for 65,536. Gaps count as in the sum.
    ///
    /// ```
    /// use modelardb_rattle::{ErrorBound, MacaqueV, Opening, Refusal};
    ///
    /// let mut writer = MacaqueV::new(ErrorBound::Lossless, Opening::On(20.0))?;
    /// assert_eq!(writer.mean(), None);
    /// writer.compress_values(&[20.5, 21.0], &mut [0; 16])?;
    /// assert_eq!(writer.mean(), Some(20.75));
    /// # Ok::<(), Refusal>(())
    /// ```
    pub fn mean(&self) -> Option<f64> {
        let length = self.length();
        (length > 0).then(|| f64::from(self.sum()) / length as f64)
    }

    /// A word that holds 32 bits.
    fn bits(&self, word: usize) -> u32 {
        self.row[word] as u32
    }
}

/// The state by its fields, each value beside its bits.
///
/// ```
/// use modelardb_rattle::{ErrorBound, MacaqueV, Opening, Refusal};
///
/// let mut writer = MacaqueV::new(ErrorBound::Absolute(0.5), Opening::First)?;
/// writer.compress_values(&[20.5], &mut [0; 8])?;
/// let shown = format!("{writer:?}");
/// assert!(shown.starts_with("MacaqueV { error_bound: Absolute(0.5), min_value: 20.5 (41A40000), "));
/// assert!(shown.ends_with("with_first: true, place: 32, length: 1, sum: 20.5 (41A40000) }"));
/// # Ok::<(), Refusal>(())
/// ```
impl Debug for MacaqueV {
    fn fmt(&self, f: &mut Formatter) -> fmt::Result {
        f.debug_struct("MacaqueV")
            .field("error_bound", &self.error_bound())
            .field("min_value", &F32(self.min_value_bits()))
            .field("max_value", &F32(self.max_value_bits()))
            .field("last_value", &F32(self.last_value_bits()))
            .field("last_leading_zero_bits", &self.last_leading_zero_bits())
            .field("last_trailing_zero_bits", &self.last_trailing_zero_bits())
            .field("with_first", &self.with_first())
            .field("place", &self.place())
            .field("length", &self.length())
            .field("sum", &F32(self.sum_bits()))
            .finish()
    }
}
