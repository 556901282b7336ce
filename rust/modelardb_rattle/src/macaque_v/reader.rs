//! Reading a stream value by value.

use super::Opening;
use crate::ffi::{self, READER_WORDS};
use crate::shown::F32;
use crate::{Fault, Refusal};
use std::fmt::{self, Debug, Formatter};

/// A reader that keeps hold of the lent stream and its place. It knows no total: its user decides how many
/// values to read, and [`Reader::end`] judges what follows them.
///
/// ```
/// use modelardb_rattle::{Opening, Reader, Refusal};
///
/// let case_b = [0x3F, 0x80, 0x00, 0x00, 0xB0, 0x91, 0xFE, 0xFF];
/// let mut reader = Reader::open(&case_b, Opening::First);
/// let mut sum = 0.0;
/// for _ in 0..4 {
///     sum += reader.next_value()?;
/// }
/// assert_eq!((sum, reader.last_value(), reader.length()), (5.0, 1.0, 4));
/// assert_eq!(reader.end(), Ok(()));
///
/// // There is no fifth value, and the reader stays where it is.
/// let refused = Err(Refusal::EndsEarly { value: 4, place: 64 });
/// assert_eq!(reader.next_value(), refused);
/// assert_eq!((reader.length(), reader.place()), (4, 64));
/// # Ok::<(), Refusal>(())
/// ```
#[derive(Clone, PartialEq, Eq)]
pub struct Reader<'a> {
    stream: &'a [u8],
    /// Where it stands, as it crosses the C face: see [`READER_WORDS`].
    row: [u64; READER_WORDS],
}

impl<'a> Reader<'a> {
    /// The reader before the first value. Nothing is refused: the stream is judged as it is read.
    pub fn open(stream: &'a [u8], opening: Opening) -> Self {
        let mut row = [0; READER_WORDS];
        let fault = ffi::reader_open(opening.words(), &mut row);
        assert_eq!(
            fault,
            Fault::ACCEPTED,
            "a mode and a row that open a reader"
        );
        Self { stream, row }
    }

    /// The next value. A refusal leaves the reader as it was.
    ///
    /// # Errors
    ///
    /// [`Refusal::OverLimit`] behind 65,536 values; then what is wrong with the stream at this place:
    /// [`Refusal::EndsEarly`], [`Refusal::NoWindow`] or [`Refusal::WindowNotAllowed`], with this reader's
    /// [`length`](Reader::length) and [`place`](Reader::place).
    pub fn next_value(&mut self) -> Result<f32, Refusal> {
        self.next_value_bits().map(f32::from_bits)
    }

    /// The bits of [`Reader::next_value`].
    ///
    /// # Errors
    ///
    /// Those of [`Reader::next_value`].
    pub fn next_value_bits(&mut self) -> Result<u32, Refusal> {
        let mut out = [0];
        let fault = ffi::reader_next(self.stream, &mut self.row, &mut out);
        Refusal::judge(fault)?;
        Ok(out[0])
    }

    /// Whether the stream ends behind the values read.
    ///
    /// # Errors
    ///
    /// [`Refusal::Leftover`] where a padding bit is set or a byte follows, with this reader's
    /// [`length`](Reader::length) and the place of the first such bit.
    ///
    /// ```
    /// use modelardb_rattle::{Opening, Reader, Refusal};
    ///
    /// let mut reader = Reader::open(&[0xA0], Opening::On(1.0));
    /// reader.next_value()?;
    /// assert_eq!(reader.end(), Err(Refusal::Leftover { value: 1, place: 2 }));
    /// reader.next_value()?;
    /// assert_eq!(reader.end(), Ok(()));
    /// # Ok::<(), Refusal>(())
    /// ```
    pub fn end(&self) -> Result<(), Refusal> {
        Refusal::judge(ffi::reader_end(self.stream, &self.row))
    }

    /// The last value read; before any, the one that the stream opens on, or +0.
    pub fn last_value(&self) -> f32 {
        f32::from_bits(self.last_value_bits())
    }

    /// The bits of [`Reader::last_value`].
    pub fn last_value_bits(&self) -> u32 {
        self.row[0] as u32
    }

    /// How many bits are read.
    pub fn place(&self) -> usize {
        self.row[4] as usize
    }

    /// How many values are read.
    pub fn length(&self) -> usize {
        self.row[5] as usize
    }
}

/// The state by its fields, the last value beside its bits.
impl Debug for Reader<'_> {
    fn fmt(&self, f: &mut Formatter) -> fmt::Result {
        f.debug_struct("Reader")
            .field("stream", &format_args!("{} bytes", self.stream.len()))
            .field("last_value", &F32(self.last_value_bits()))
            .field("last_leading_zero_bits", &self.row[1])
            .field("last_trailing_zero_bits", &self.row[2])
            .field("with_first", &(self.row[3] == 1))
            .field("place", &self.place())
            .field("length", &self.length())
            .finish()
    }
}

/// The last of a stream's values, `count` of them; +0 for a count of 0, whatever the stream opens on.
///
/// # Errors
///
/// [`Refusal::OverLimit`] for a count above 65,536; then what is wrong with the stream and where:
/// [`Refusal::EndsEarly`], [`Refusal::NoWindow`], [`Refusal::WindowNotAllowed`] or [`Refusal::Leftover`].
///
/// ```
/// use modelardb_rattle::{Opening, Refusal, macaque_v};
///
/// let case_a = [0x3F, 0x80, 0x00, 0x00, 0xB0, 0x91, 0xFE];
/// assert_eq!(macaque_v::last_value(&case_a, 3, Opening::First), Ok(2.0));
/// assert_eq!(macaque_v::last_value(&[], 0, Opening::On(7.0)), Ok(0.0));
///
/// let refused = macaque_v::last_value(&case_a[..6], 3, Opening::First);
/// assert_eq!(refused, Err(Refusal::EndsEarly { value: 2, place: 34 }));
/// ```
pub fn last_value(bytes: &[u8], count: usize, opening: Opening) -> Result<f32, Refusal> {
    last_value_bits(bytes, count, opening).map(f32::from_bits)
}

/// The bits of [`last_value`].
///
/// # Errors
///
/// Those of [`last_value`].
pub fn last_value_bits(bytes: &[u8], count: usize, opening: Opening) -> Result<u32, Refusal> {
    let mut out = [0];
    let fault = ffi::reader_last_value(bytes, count, opening.words(), &mut out);
    Refusal::judge(fault)?;
    Ok(out[0])
}
