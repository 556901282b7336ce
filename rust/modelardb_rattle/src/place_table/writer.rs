//! The writer that keeps a table beside its stream.

use super::PlaceTable;
use crate::ffi::{self, ENTRY_WORDS, STATE_WORDS};
use crate::{ErrorBound, MacaqueV, Opening, Refusal};

/// A [`MacaqueV`] and the [`PlaceTable`] of its stream: what is written is what the writer alone would write, and
/// the table grows with it.
///
/// An upload that is cut at a value and goes on has the bytes, the state and the table of one run:
///
/// ```
/// use modelardb_rattle::{ErrorBound, Opening, Refusal, TabledWriter};
///
/// let (bound, first) = (ErrorBound::Absolute(0.2), Opening::First);
/// let readings: Vec<f32> = (0..200).map(|number| 20.0 + (number % 13) as f32 / 4.0).collect();
/// let mut in_one_run = vec![0; 1200];
/// let mut whole = TabledWriter::new(bound, first)?;
/// whole.compress_values(&readings, &mut in_one_run)?;
/// assert_eq!(whole.table().entries(), 4);
///
/// // The link broke after 150 readings, of which 128 are known to have arrived.
/// let mut resumed = vec![0; 1200];
/// let mut broken = TabledWriter::new(bound, first)?;
/// broken.compress_values(&readings[..150], &mut resumed)?;
/// let (used, count) = (broken.writer().bytes_used(), broken.writer().length());
/// let mut on = TabledWriter::reopen(&mut resumed, used, count, 128, first, bound, broken.table())?;
/// // The entry of value 128 is dropped, and written again with that value.
/// assert_eq!((broken.table().entries(), on.table().entries()), (3, 2));
/// on.compress_values(&readings[128..], &mut resumed)?;
///
/// assert_eq!(on, whole);
/// let used = whole.writer().bytes_used();
/// assert_eq!(resumed[..used], in_one_run[..used]);
/// # Ok::<(), Refusal>(())
/// ```
#[derive(Clone, Debug, PartialEq, Eq)]
pub struct TabledWriter {
    writer: MacaqueV,
    /// Has the number of entries that the writer's length asks for.
    table: PlaceTable,
}

impl TabledWriter {
    /// The writer before any value, and a table of no entries.
    ///
    /// # Errors
    ///
    /// [`Refusal::BoundNotAllowed`].
    pub fn new(error_bound: ErrorBound, opening: Opening) -> Result<Self, Refusal> {
        Ok(Self {
            writer: MacaqueV::new(error_bound, opening)?,
            table: PlaceTable::default(),
        })
    }

    /// The writer behind the first `k` of the `count` values in the buffer's first `used` bytes, as
    /// [`MacaqueV::reopen`] gives it, with the entries of the table for the values before `k`. A refusal leaves the
    /// buffer as it was.
    ///
    /// The entries are counted and not looked at: wrong ones are carried on. Let a table that comes from elsewhere
    /// pass a [`check`](PlaceTable::check) before.
    ///
    /// # Errors
    ///
    /// [`Refusal::BoundNotAllowed`]; [`Refusal::OverLimit`] for a count above 65,536;
    /// [`Refusal::CountsDisagree`] for a `k` above the count, a `used` above the buffer's length, or a table that
    /// ends inside an entry; [`Refusal::TableDoesNotMatch`] for a table that has not the number of entries that the
    /// count asks for; then what is wrong with the stream and where, whatever `k` is.
    ///
    /// ```
    /// use modelardb_rattle::{ErrorBound, Opening, PlaceTable, Refusal, TabledWriter};
    ///
    /// let mut buffer = [0x3F, 0x80, 0x00, 0x00, 0xB0, 0x91, 0xFE];
    /// let (lossless, first) = (ErrorBound::Lossless, Opening::First);
    /// let none = PlaceTable::default();
    /// let refused = TabledWriter::reopen(&mut buffer, 7, 3, 2, first, lossless, &none);
    /// assert_eq!(refused, Err(Refusal::TableDoesNotMatch));
    /// ```
    pub fn reopen(
        buffer: &mut [u8],
        used: usize,
        count: usize,
        k: usize,
        opening: Opening,
        error_bound: ErrorBound,
        table: &PlaceTable,
    ) -> Result<Self, Refusal> {
        let (opening, bound) = (opening.words(), error_bound.words());
        let (mut row, mut entries) = ([0; STATE_WORDS], table.entries());
        let lent = (table.words(), &mut entries);
        let fault = ffi::table_reopen(buffer, used, (count, k), opening, bound, &mut row, lent);
        Refusal::judge(fault)?;
        let kept = &table.words()[..ENTRY_WORDS * entries];
        Ok(Self {
            writer: MacaqueV { row },
            table: PlaceTable::from_words(kept.to_vec()),
        })
    }

    /// The writer behind whatever arrived of a stream, as [`MacaqueV::rescue`] gives it, with a table that is made
    /// anew: the entries of the values that are kept. A refusal leaves the buffer as it was.
    ///
    /// Of a stream that is whole, with its count as the limit, it makes a table that is missing. The table is that of
    /// the bytes as they are: where they were changed, it goes with the change, and a [`check`](PlaceTable::check) does
    /// not see it any more.
    ///
    /// # Errors
    ///
    /// Those of [`MacaqueV::rescue`].
    ///
    /// ```
    /// use modelardb_rattle::{ErrorBound, Opening, Refusal, TabledWriter};
    ///
    /// let (bound, first) = (ErrorBound::Absolute(0.2), Opening::First);
    /// let readings: Vec<f32> = (0..200).map(|number| 20.0 + (number % 13) as f32 / 4.0).collect();
    /// let mut in_one_run = vec![0; 1200];
    /// let mut whole = TabledWriter::new(bound, first)?;
    /// whole.compress_values(&readings, &mut in_one_run)?;
    ///
    /// // 80 bytes arrived, and no table.
    /// let mut rescued = vec![0; 1200];
    /// rescued[..80].copy_from_slice(&in_one_run[..80]);
    /// let mut on = TabledWriter::rescue(&mut rescued, 80, 200, first, bound)?;
    /// let kept = on.writer().length();
    /// assert_eq!(on.table().check(&rescued[..on.writer().bytes_used()], kept, first), Ok(()));
    /// on.compress_values(&readings[kept..], &mut rescued)?;
    ///
    /// assert_eq!(on, whole);
    /// let used = whole.writer().bytes_used();
    /// assert_eq!(rescued[..used], in_one_run[..used]);
    /// # Ok::<(), Refusal>(())
    /// ```
    pub fn rescue(
        buffer: &mut [u8],
        used: usize,
        limit: usize,
        opening: Opening,
        error_bound: ErrorBound,
    ) -> Result<Self, Refusal> {
        let (opening, bound) = (opening.words(), error_bound.words());
        // A limit of more values than a stream may have is refused before the room is looked at.
        let room = PlaceTable::entries_for(limit.min(MacaqueV::MOST_VALUES));
        let (mut words, mut row, mut entries) = (vec![0; ENTRY_WORDS * room], [0; STATE_WORDS], 0);
        let lent = (&mut words[..], &mut entries);
        let fault = ffi::table_rescue(buffer, used, limit, opening, bound, &mut row, lent);
        Refusal::judge(fault)?;
        words.truncate(ENTRY_WORDS * entries);
        Ok(Self {
            writer: MacaqueV { row },
            table: PlaceTable::from_words(words),
        })
    }

    /// Writes the values behind those that stand in the buffer, and their entries behind those of the table. No
    /// values change nothing. A refusal leaves the writer, its table and the buffer as they were.
    ///
    /// # Errors
    ///
    /// Those of [`MacaqueV::compress_values`]: the table has room as it needs it.
    pub fn compress_values(&mut self, values: &[f32], buffer: &mut [u8]) -> Result<(), Refusal> {
        self.compress_values_bits(ffi::as_bits(values), buffer)
    }

    /// [`TabledWriter::compress_values`] on the values' bits.
    ///
    /// # Errors
    ///
    /// Those of [`TabledWriter::compress_values`].
    pub fn compress_values_bits(
        &mut self,
        values: &[u32],
        buffer: &mut [u8],
    ) -> Result<(), Refusal> {
        let length = self.writer.length() + values.len();
        let room = PlaceTable::entries_for(length.min(MacaqueV::MOST_VALUES));
        let (row, words) = (&mut self.writer.row, &mut self.table.words);
        let room = ENTRY_WORDS * room;
        Refusal::judge(ffi::table_compress_into(row, values, buffer, words, room))
    }

    /// What is known of the values behind it: how many they are, how many bytes they take, their sum and their mean
    /// (`writer().mean()`).
    pub fn writer(&self) -> &MacaqueV {
        &self.writer
    }

    /// The table of the stream so far.
    pub fn table(&self) -> &PlaceTable {
        &self.table
    }

    /// The writer, to write on without a table, and the table. To go on with it later, [`reopen`](Self::reopen) at the
    /// count with the entries that it asks for.
    pub fn into_parts(self) -> (MacaqueV, PlaceTable) {
        (self.writer, self.table)
    }
}
