//! Where two uploads part: the indices at which the values of two streams differ.
//!
//! This is what the program `compare` lists, over streams of any allowed size. There the calls that make
//! each line are proved; here two proved readers are walked side by side by plain Rust.

use crate::macaque_v::{Reader, last_value_bits};
use crate::{MacaqueV, Opening, Refusal};
use std::error::Error;
use std::fmt::{self, Display, Formatter};
use std::iter::FusedIterator;

/// A stream with what has to be kept beside its bytes: how many values it holds, and how it opens. (Two that
/// open on a NaN are not equal, as two NaNs are not.)
#[derive(Clone, Copy, Debug, PartialEq)]
pub struct Upload<'a> {
    /// The stream's bytes, no more and no fewer.
    pub bytes: &'a [u8],
    /// How many values it holds.
    pub count: usize,
    /// How it opens.
    pub opening: Opening,
}

/// The bytes of a file before its stream.
const HEAD: usize = 9;

impl<'a> Upload<'a> {
    /// The upload in a file as `compare` reads them: a mode byte, 0 for [`Opening::First`] and 1 for
    /// [`Opening::On`], the opening value and the count, four bytes each with the lowest first, and the
    /// stream. Nothing of the stream is judged yet, nor how many bytes it has: `compare` itself takes no
    /// more than 24,576.
    ///
    /// # Errors
    ///
    /// [`Refusal::EndsEarly`], with 0 and 0, for a file under nine bytes; [`Refusal::OverLimit`] for a mode
    /// above 1 or a count above 65,536.
    ///
    /// ```
    /// use modelardb_rattle::{Opening, Refusal, compare::Upload};
    ///
    /// let file = [1, 0x00, 0x00, 0x80, 0x3F, 2, 0, 0, 0, 0xA0];
    /// let upload = Upload::of_file(&file)?;
    /// let bytes = [0xA0];
    /// assert_eq!(upload, Upload { bytes: &bytes, count: 2, opening: Opening::On(1.0) });
    /// assert_eq!(upload.to_file()?, file);
    /// # Ok::<(), Refusal>(())
    /// ```
    pub fn of_file(file: &'a [u8]) -> Result<Self, Refusal> {
        let Some((head, bytes)) = file.split_first_chunk::<HEAD>() else {
            return Err(Refusal::EndsEarly { value: 0, place: 0 });
        };
        let word =
            |at: usize| u32::from_le_bytes([head[at], head[at + 1], head[at + 2], head[at + 3]]);
        let opening = match head[0] {
            0 => Opening::First,
            1 => Opening::on_bits(word(1)),
            _ => return Err(Refusal::OverLimit),
        };
        let count = word(5) as usize;
        Self {
            bytes,
            count,
            opening,
        }
        .of_allowed_count()
    }

    /// The file of an upload: see [`Upload::of_file`]. With [`Opening::First`] the four bytes of the opening
    /// value, which are not looked at, are 0.
    ///
    /// # Errors
    ///
    /// [`Refusal::OverLimit`] for a count above 65,536.
    pub fn to_file(self) -> Result<Vec<u8>, Refusal> {
        let Self {
            bytes,
            count,
            opening,
        } = self.of_allowed_count()?;
        let (mode, value) = opening.words();
        let mut file = Vec::with_capacity(HEAD + bytes.len());
        file.push(mode as u8);
        file.extend(value.to_le_bytes());
        file.extend((count as u32).to_le_bytes());
        file.extend(bytes);
        Ok(file)
    }

    fn of_allowed_count(self) -> Result<Self, Refusal> {
        match self.count {
            0..=MacaqueV::MOST_VALUES => Ok(self),
            _ => Err(Refusal::OverLimit),
        }
    }

    /// The values, once the whole stream was read and nothing of it is refused.
    fn values(self) -> Result<Values<'a>, Refusal> {
        last_value_bits(self.bytes, self.count, self.opening)?;
        Ok(Values {
            reader: Reader::open(self.bytes, self.opening),
            rest: self.count,
        })
    }
}

/// The differences of two streams, in rising order: each index at which the bits of their values differ,
/// and each that one of them has alone. Both streams are read whole first, so that the iterator meets no
/// refusal; no list of values is made.
///
/// # Errors
///
/// The left stream's refusal, else the right's, with its side: [`Refusal::OverLimit`] for a count above
/// 65,536; then what is wrong with the stream and where.
///
/// ```
/// use modelardb_rattle::Opening;
/// use modelardb_rattle::compare::{Difference, Side, Upload, differences};
///
/// let box_holds = Upload {
///     bytes: &[0x3F, 0x80, 0x00, 0x00, 0xB0, 0x91, 0xFE, 0xFF], // 1, 1, 2, 1
///     count: 4,
///     opening: Opening::First,
/// };
/// let store_holds = Upload { bytes: &[0x80], count: 1, opening: Opening::On(1.0) }; // 1
/// let lines: Vec<String> = differences(box_holds, store_holds)?.map(|d| d.to_string()).collect();
/// assert_eq!(lines, ["1 3F800000 -", "2 40000000 -", "3 3F800000 -"]);
///
/// // Other bytes, and the same values.
/// let same = Upload { bytes: &[0x3F, 0x80, 0x00, 0x00], count: 1, opening: Opening::First };
/// assert_eq!(differences(same, store_holds)?.count(), 0);
///
/// let cut = Upload { bytes: &box_holds.bytes[..7], ..box_holds };
/// let refused = differences(same, cut).unwrap_err();
/// assert_eq!(refused.side, Side::Right);
/// let told = "right refused 5 at value 3, bit 55: the stream ends before its last value";
/// assert_eq!(refused.to_string(), told);
/// # Ok::<(), modelardb_rattle::compare::SideRefused>(())
/// ```
pub fn differences<'a>(
    left: Upload<'a>,
    right: Upload<'a>,
) -> Result<Differences<'a>, SideRefused> {
    Differences::of(|| left.values(), || right.values())
}

/// [`differences`] of the uploads in two files ([`Upload::of_file`]), in the program's order: the left file, its head
/// and its stream, is judged before the right one.
///
/// # Errors
///
/// Those of [`Upload::of_file`] and of [`differences`], the left file's first.
///
/// ```
/// use modelardb_rattle::compare::differences_of_files;
///
/// let case_d = [1, 0x00, 0x00, 0x80, 0x3F, 2, 0, 0, 0, 0xA0]; // 1, 1, opened on 1
/// let one = [0, 0, 0, 0, 0, 1, 0, 0, 0, 0x3F, 0x80, 0x00, 0x00]; // 1, stored in full
/// let mut found = differences_of_files(&one, &case_d)?;
/// assert_eq!(found.next().map(|d| d.to_string()).as_deref(), Some("1 - 3F800000"));
/// assert_eq!(found.next(), None);
///
/// let no_head = differences_of_files(&case_d, &one[..8]).unwrap_err();
/// assert!(no_head.to_string().starts_with("right refused 5 at value 0, bit 0"));
/// # Ok::<(), modelardb_rattle::compare::SideRefused>(())
/// ```
pub fn differences_of_files<'a>(
    left: &'a [u8],
    right: &'a [u8],
) -> Result<Differences<'a>, SideRefused> {
    let values = |file| Upload::of_file(file).and_then(Upload::values);
    Differences::of(|| values(left), || values(right))
}

/// An index at which two streams differ. Its text is the line that `compare` prints of it.
#[derive(Clone, Copy, Debug, PartialEq, Eq, Hash)]
pub struct Difference {
    /// Counted from 0.
    pub index: usize,
    /// The bits of the left value, where the left stream has one.
    pub left: Option<u32>,
    /// The bits of the right value, where the right stream has one.
    pub right: Option<u32>,
}

impl Difference {
    /// The left value. Two that differ may compare as equal, as +0 and −0 do, and NaNs with other payloads
    /// look alike: what is compared is their bits.
    pub fn left_value(self) -> Option<f32> {
        self.left.map(f32::from_bits)
    }

    /// The right value.
    pub fn right_value(self) -> Option<f32> {
        self.right.map(f32::from_bits)
    }
}

impl Display for Difference {
    fn fmt(&self, f: &mut Formatter) -> fmt::Result {
        write!(f, "{}", self.index)?;
        for value in [self.left, self.right] {
            match value {
                Some(bits) => write!(f, " {bits:08X}")?,
                None => write!(f, " -")?,
            }
        }
        Ok(())
    }
}

/// A stream's values that are still to come.
#[derive(Clone, Debug)]
struct Values<'a> {
    reader: Reader<'a>,
    rest: usize,
}

impl Values<'_> {
    fn next(&mut self) -> Option<u32> {
        self.rest = self.rest.checked_sub(1)?;
        let value = self.reader.next_value_bits();
        Some(value.expect("a value of a stream that was read whole before"))
    }
}

/// What [`differences`] goes through.
#[derive(Clone, Debug)]
pub struct Differences<'a> {
    left: Values<'a>,
    right: Values<'a>,
    index: usize,
}

impl<'a> Differences<'a> {
    /// The left side is judged first, and the right one only where it is right.
    fn of(
        left: impl FnOnce() -> Result<Values<'a>, Refusal>,
        right: impl FnOnce() -> Result<Values<'a>, Refusal>,
    ) -> Result<Self, SideRefused> {
        let of = |side: Side| move |refusal: Refusal| SideRefused { side, refusal };
        Ok(Self {
            left: left().map_err(of(Side::Left))?,
            right: right().map_err(of(Side::Right))?,
            index: 0,
        })
    }
}

impl Iterator for Differences<'_> {
    type Item = Difference;

    fn next(&mut self) -> Option<Difference> {
        loop {
            let (left, right) = (self.left.next(), self.right.next());
            if (left, right) == (None, None) {
                return None;
            }
            let index = self.index;
            self.index += 1;
            if left != right {
                return Some(Difference { index, left, right });
            }
        }
    }

    /// What one stream has alone is certain.
    fn size_hint(&self) -> (usize, Option<usize>) {
        let (left, right) = (self.left.rest, self.right.rest);
        (left.abs_diff(right), Some(left.max(right)))
    }
}

impl FusedIterator for Differences<'_> {}

/// One of two streams that are compared.
#[derive(Clone, Copy, Debug, PartialEq, Eq, Hash)]
pub enum Side {
    /// The first one handed in.
    Left,
    /// The second.
    Right,
}

impl Display for Side {
    fn fmt(&self, f: &mut Formatter) -> fmt::Result {
        f.write_str(match self {
            Side::Left => "left",
            Side::Right => "right",
        })
    }
}

/// Which of two streams is refused, and why. Its text says the refusal in words, where `compare` prints
/// three numbers.
#[derive(Clone, Copy, Debug, PartialEq, Eq, Hash)]
pub struct SideRefused {
    /// The side; the left one where both are refused.
    pub side: Side,
    /// Why, and where.
    pub refusal: Refusal,
}

impl Display for SideRefused {
    fn fmt(&self, f: &mut Formatter) -> fmt::Result {
        write!(f, "{} {}", self.side, self.refusal)
    }
}

impl Error for SideRefused {
    fn source(&self) -> Option<&(dyn Error + 'static)> {
        Some(&self.refusal)
    }
}
