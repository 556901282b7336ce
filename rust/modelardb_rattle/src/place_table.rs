//! The place table: where reading can begin inside a stream, so that an hour of a night is read without the
//! rest of it. A [`TabledWriter`] makes one beside its stream; kept with the bytes, it reads a range of them.

mod writer;

use crate::ffi::{self, ENTRY_WORDS};
use crate::shown::F32;
use crate::{MacaqueV, Opening, Refusal};
use std::fmt::{self, Debug, Formatter};
use std::ops::Range;

pub use writer::TabledWriter;

/// The table of a stream: an entry for each value whose number is a multiple of 64, with what a reader knows
/// before that value. Keep its [`words`](PlaceTable::words) beside the bytes, the count, the opening, and to write on the
/// bound.
///
/// A range trusts the table: from a wrong entry it may read other values, as a stream with altered bytes may. So
/// let one that comes from elsewhere pass a [`check`](PlaceTable::check) once.
///
/// ```
/// use modelardb_rattle::{ErrorBound, MacaqueV, Opening, PlaceTable, Refusal, TabledWriter};
///
/// // A night of 421 readings, written with a table.
/// let night: Vec<f32> = (0..421).map(|minute| 20.0 + (minute / 7) as f32 * 0.25).collect();
/// let mut bytes = vec![0; MacaqueV::most_bytes(night.len(), Opening::First)?];
/// let mut upload = TabledWriter::new(ErrorBound::Lossless, Opening::First)?;
/// upload.compress_values(&night, &mut bytes)?;
/// bytes.truncate(upload.writer().bytes_used());
/// let (count, words) = (upload.writer().length(), upload.table().words());
/// let stored: Vec<u8> = words.iter().flat_map(|word| word.to_le_bytes()).collect();
///
/// // Later: the bytes, their count and the words are taken from where they are kept.
/// let word = |bytes: &[u8]| u64::from_le_bytes(bytes.try_into().expect("eight bytes"));
/// let table = PlaceTable::from_words(stored.chunks_exact(8).map(word).collect());
/// table.check(&bytes, count, Opening::First)?;
/// let hour = table.range(&bytes, count, Opening::First, 90..120)?;
/// assert_eq!(hour, night[90..120]);
/// // 56 values were decoded, instead of 421.
/// assert_eq!(PlaceTable::decoded(90..120), 64..120);
/// # Ok::<(), Refusal>(())
/// ```
#[derive(Clone, Default, PartialEq, Eq)]
pub struct PlaceTable {
    /// As they cross the C face, [`ENTRY_WORDS`] to an entry.
    words: Vec<u64>,
}

impl PlaceTable {
    /// How many values an entry stands for.
    pub const VALUES_PER_ENTRY: usize = ffi::VALUES_PER_ENTRY;

    /// The table of words from where they were kept. Any words are taken: [`PlaceTable::check`] and
    /// [`PlaceTable::range`] judge them.
    pub fn from_words(words: Vec<u64>) -> Self {
        Self { words }
    }

    /// The words to keep, four to an entry: the place in bits, the bits of the last value kept, and the window's
    /// leading and trailing zero bits.
    /// A file holds them in an order of bytes that you choose, as [`u64::to_le_bytes`] has it.
    ///
    /// ```
    /// use modelardb_rattle::{ErrorBound, Opening, Refusal, TabledWriter};
    ///
    /// // With the first value in full, 65 times 1.0 takes 32 bits and twice 64.
    /// let mut upload = TabledWriter::new(ErrorBound::Lossless, Opening::First)?;
    /// upload.compress_values(&[1.0; 65], &mut [0; 20])?;
    /// assert_eq!(upload.table().words(), [0, 0, 255, 0, 158, 0x3F80_0000, 255, 0]);
    /// # Ok::<(), Refusal>(())
    /// ```
    pub fn words(&self) -> &[u64] {
        &self.words
    }

    /// How many entries there are; one that is cut off counts, and makes every call that looks at the table refuse it.
    pub fn entries(&self) -> usize {
        self.words.len().div_ceil(ENTRY_WORDS)
    }

    /// How many entries the table of so many values has.
    ///
    /// ```
    /// use modelardb_rattle::PlaceTable;
    /// assert_eq!([0, 1, 64, 65, 421].map(PlaceTable::entries_for), [0, 1, 1, 2, 7]);
    /// ```
    pub fn entries_for(count: usize) -> usize {
        count.div_ceil(Self::VALUES_PER_ENTRY)
    }

    /// Whether this is the table of a stream of `count` values, by reading it once. A table that is, reads every
    /// range as [`grid`](crate::macaque_v::grid) does.
    ///
    /// # Errors
    ///
    /// [`Refusal::OverLimit`] for a count above 65,536; [`Refusal::CountsDisagree`] for a table that ends inside an
    /// entry; [`Refusal::TableDoesNotMatch`] for another number of entries; then what is wrong with the stream and
    /// where; then [`Refusal::TableDoesNotMatch`] for an entry that is not the stream's. [`entries`](PlaceTable::entries)
    /// beside [`entries_for`](PlaceTable::entries_for) tells the two apart. Table, count and stream are held against each
    /// other, so it does not say which of them is wrong.
    ///
    /// ```
    /// use modelardb_rattle::{Opening, PlaceTable, Refusal};
    ///
    /// let case_a = [0x3F, 0x80, 0x00, 0x00, 0xB0, 0x91, 0xFE];
    /// let table = PlaceTable::from_words(vec![0, 0, 255, 0]);
    /// assert_eq!(table.check(&case_a, 3, Opening::First), Ok(()));
    ///
    /// // It opens on 1.0 instead: the stream's own refusal comes first.
    /// let refused = table.check(&case_a, 3, Opening::On(1.0));
    /// assert_eq!(refused, Err(Refusal::NoWindow { value: 0, place: 0 }));
    ///
    /// let other = PlaceTable::from_words(vec![1, 0, 255, 0]);
    /// let refused = other.check(&case_a, 3, Opening::First);
    /// assert_eq!(refused, Err(Refusal::TableDoesNotMatch));
    /// ```
    pub fn check(&self, bytes: &[u8], count: usize, opening: Opening) -> Result<(), Refusal> {
        Refusal::judge(ffi::table_check(bytes, count, opening.words(), self.lent()))
    }

    /// The values of a stream whose numbers, counted from 0, lie in a range, out of `count` values. It goes through
    /// the values from the last multiple of 64 on that is not behind the range's start, and through none
    /// behind its end: see [`PlaceTable::decoded`]. It looks at one entry, and not at the opening value.
    ///
    /// # Errors
    ///
    /// [`Refusal::OverLimit`] for a count above 65,536; [`Refusal::CountsDisagree`] for a range that begins behind
    /// its end or ends behind the count, or for a table that ends inside an entry; [`Refusal::TableDoesNotMatch`]
    /// where the entry to start from is missing, has its place beyond all of the stream's bits, or holds no value or no
    /// window; then what is wrong with the stream from there to the range's end, and where: [`Refusal::EndsEarly`],
    /// [`Refusal::NoWindow`] or [`Refusal::WindowNotAllowed`]. By a table that is not the stream's these can be told of a
    /// stream that is right: [`check`](PlaceTable::check) it first. An empty range needs no table.
    ///
    /// ```
    /// use modelardb_rattle::{Opening, PlaceTable, Refusal};
    ///
    /// let case_b = [0x3F, 0x80, 0x00, 0x00, 0xB0, 0x91, 0xFE, 0xFF]; // 1, 1, 2, 1
    /// let table = PlaceTable::from_words(vec![0, 0, 255, 0]);
    /// assert_eq!(table.range(&case_b, 4, Opening::First, 1..3), Ok(vec![1.0, 2.0]));
    /// assert_eq!(table.range(&case_b, 4, Opening::First, 4..4), Ok(vec![]));
    ///
    /// let refused = table.range(&case_b, 4, Opening::First, 3..5);
    /// assert_eq!(refused, Err(Refusal::CountsDisagree));
    /// // Value 64 would have an entry of its own.
    /// let refused = table.range(&case_b, 65, Opening::First, 64..65);
    /// assert_eq!(refused, Err(Refusal::TableDoesNotMatch));
    /// ```
    pub fn range(
        &self,
        bytes: &[u8],
        count: usize,
        opening: Opening,
        values: Range<usize>,
    ) -> Result<Vec<f32>, Refusal> {
        let bits = self.range_bits(bytes, count, opening, values)?;
        Ok(bits.into_iter().map(f32::from_bits).collect())
    }

    /// The bits of [`PlaceTable::range`].
    ///
    /// # Errors
    ///
    /// Those of [`PlaceTable::range`].
    pub fn range_bits(
        &self,
        bytes: &[u8],
        count: usize,
        opening: Opening,
        values: Range<usize>,
    ) -> Result<Vec<u32>, Refusal> {
        // One of more values than a stream may have is refused before the room is looked at.
        let mut out = vec![0; values.len().min(MacaqueV::MOST_VALUES)];
        let opening = opening.words();
        let fault = ffi::table_range(bytes, count, opening, self.lent(), values, &mut out);
        Refusal::judge(fault)?;
        Ok(out)
    }

    /// The values that reading a range goes through: at most 63 before it, and none behind it.
    ///
    /// ```
    /// use modelardb_rattle::PlaceTable;
    ///
    /// assert_eq!(PlaceTable::decoded(65_524..65_536), 65_472..65_536);
    /// assert_eq!(PlaceTable::decoded(0..12), 0..12);
    /// assert!(PlaceTable::decoded(100..100).is_empty());
    /// ```
    pub fn decoded(values: Range<usize>) -> Range<usize> {
        if values.is_empty() {
            return values;
        }
        let entry = values.start / Self::VALUES_PER_ENTRY;
        Self::VALUES_PER_ENTRY * entry..values.end
    }

    /// The words, and how many entries are in use.
    fn lent(&self) -> (&[u64], usize) {
        (&self.words, self.entries())
    }
}

/// Its entries, each with the number of its value, and the last value beside its bits.
///
/// ```
/// let table = modelardb_rattle::PlaceTable::from_words(vec![0, 0x3F80_0000, 255, 0]);
/// assert_eq!(format!("{table:?}"), "{0: Entry { place: 0, last_value: 1.0 (3F800000), window: (255, 0) }}");
/// ```
impl Debug for PlaceTable {
    fn fmt(&self, f: &mut Formatter) -> fmt::Result {
        let numbers = (0..).step_by(Self::VALUES_PER_ENTRY);
        let entries = numbers.zip(self.words.chunks(ENTRY_WORDS).map(Entry));
        f.debug_map().entries(entries).finish()
    }
}

/// An entry to be shown.
struct Entry<'a>(&'a [u64]);

impl Debug for Entry<'_> {
    fn fmt(&self, f: &mut Formatter) -> fmt::Result {
        let &[place, last_value, leading, trailing] = self.0 else {
            return write!(f, "cut off {:X?}", self.0);
        };
        let value = u32::try_from(last_value).map(F32);
        let shown: &dyn Debug = match &value {
            Ok(value) => value,
            Err(_) => &last_value,
        };
        f.debug_struct("Entry")
            .field("place", &place)
            .field("last_value", shown)
            .field("window", &(leading, trailing))
            .finish()
    }
}
