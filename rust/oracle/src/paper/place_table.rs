//! The place table (document 02, "Place table"): where reading can begin inside a stream.

use super::macaque_v::{MacaqueV, Opening, Reader, Window, read_through};
use super::models::ErrorBound;
use super::{Answer, Read, judge_count, refusal, refuse_if};
use std::ops::Range;

/// "An entry for each value number that is a multiple of 64 and below the count".
pub const EVERY: usize = 64;

/// A lent table is a list of words, so many to an entry.
pub const ENTRY_WORDS: usize = 4;

/// "Bit place, last kept value and window before that value": four words, the window's leading and
/// trailing zeros being two.
pub type Entry = [u64; ENTRY_WORDS];

/// How many entries a count asks for.
pub fn entries_for(count: usize) -> usize {
    count.div_ceil(EVERY)
}

/// How many whole entries a lent table has room for.
pub(super) fn lent(table: &[u64]) -> usize {
    table.len() / ENTRY_WORDS
}

/// The table of values that one fresh run writes. Refusals: 1.
pub fn table_of(bound: ErrorBound, opening: Opening, values: &[u32]) -> Answer<Vec<Entry>> {
    Ok(noted(MacaqueV::new(bound, opening)?, values))
}

/// The entries that writing values adds: what the state holds before each whose number is a multiple of 64.
/// Before a raw first value it holds +0, whatever was handed in: "entry 0 .. holds place 0, last +0".
fn noted(mut state: MacaqueV, values: &[u32]) -> Vec<Entry> {
    let mut entries = vec![];
    for &value in values {
        if state.length.is_multiple_of(EVERY) {
            let raw = state.with_first && state.length == 0;
            let last_value = if raw { 0 } else { state.last_value };
            entries.push(entry(state.place, last_value, state.window));
        }
        (_, state) = state.step(value);
    }
    entries
}

fn entry(place: usize, last_value: u32, window: Window) -> Entry {
    let Window { leading, trailing } = window;
    [
        place as u64,
        last_value.into(),
        leading.into(),
        trailing.into(),
    ]
}

/// "Writing adds entries": writes values behind the place, and their entries behind those in use. The state
/// after them, and how many entries are in use then. Refusals: 1 2 3 12 13 4. "13 ... on writing or reopening:
/// not the number of entries its count asks for"; "4, no room for new entries", or for the bits. What the entries
/// in use hold is not looked at.
pub fn compress_values(
    state: MacaqueV,
    values: &[u32],
    buffer: &mut [u8],
    table: &mut [u64],
    entries: usize,
) -> Answer<(MacaqueV, usize)> {
    state.judge_write(values.len(), buffer.len())?;
    judge_entries(table, entries, state.length)?;
    let all = entries_for(state.length + values.len());
    refuse_if(all > lent(table), refusal::OUTPUT)?;
    let after = state.compress_values(values, buffer)?;
    put_entries(table, entries, &noted(state, values));
    Ok((after, all))
}

/// Entries to their words, behind so many others.
pub(super) fn put_entries(table: &mut [u64], behind: usize, entries: &[Entry]) {
    let words = entries.concat();
    table[ENTRY_WORDS * behind..][..words.len()].copy_from_slice(&words);
}

/// More entries in use than the table lent holds are counts that do not go together: 12. Not as many as
/// so many values ask for: 13.
fn judge_entries(table: &[u64], entries: usize, count: usize) -> Answer<()> {
    refuse_if(entries > lent(table), refusal::COUNTS)?;
    refuse_if(entries != entries_for(count), refusal::TABLE)
}

/// What is handed to a reopening besides its buffer and its table.
#[derive(Clone, Copy, Debug)]
pub struct Reopening {
    pub used: usize,
    pub count: usize,
    pub k: usize,
    pub opening: Opening,
    pub error_bound: ErrorBound,
}

impl Reopening {
    /// What is refused before the stream is read, over a buffer of so many bytes: 1 3 12 13.
    pub fn judge(&self, bytes: usize, table: &[u64], entries: usize) -> Answer<()> {
        self.error_bound.judge()?;
        judge_count(self.count)?;
        refuse_if(self.k > self.count || self.used > bytes, refusal::COUNTS)?;
        judge_entries(table, entries, self.count)
    }

    /// "Reopening at k drops [the entries] for k and above": the state there, and how many entries stay in
    /// use. Refusals: 1 3 12 13, then 5 to 8.
    pub fn reopen(
        &self,
        buffer: &mut [u8],
        table: &[u64],
        entries: usize,
    ) -> Read<(MacaqueV, usize)> {
        self.judge(buffer.len(), table, entries)?;
        let Self {
            used,
            count,
            k,
            opening,
            error_bound,
        } = *self;
        let state = MacaqueV::reopen(buffer, used, count, k, opening, error_bound)?;
        Ok((state, entries_for(k)))
    }
}

/// The table of a stream by reading it. Refusals: 5 to 8.
pub fn table_in(bytes: &[u8], count: usize, opening: Opening) -> Read<Vec<Entry>> {
    let read = read_through(bytes, count, opening)?;
    let before: Vec<Reader> = read.into_iter().map(|(before, _)| before).collect();
    Ok(entries_of(&before))
}

/// The entries by the readers before all values.
pub(super) fn entries_of(before: &[Reader]) -> Vec<Entry> {
    let noted = before.iter().step_by(EVERY);
    noted
        .map(|before| entry(before.place, before.last_value, before.window))
        .collect()
}

/// "A checking call goes through the stream once and refuses a table that doesn't belong to it": 3 12, then 13
/// for the number of entries, then 5 to 8 of the stream, then 13 for what the entries hold.
pub fn check(
    bytes: &[u8],
    count: usize,
    opening: Opening,
    table: &[u64],
    entries: usize,
) -> Read<()> {
    judge_count(count)?;
    judge_entries(table, entries, count)?;
    let own = table_in(bytes, count, opening)?.concat();
    refuse_if(own != table[..ENTRY_WORDS * entries], refusal::TABLE)?;
    Ok(())
}

/// "A range read of values p to q − 1 takes any table", into the first places of `out`. Refusals: 3; 12 for "p
/// above q, or q above the count", or more entries in use than are lent; 13 for the entry that it starts from;
/// 4; "with 5 to 7 as they arise; 8 isn't judged". "With p = q it answers no values", behind 3 and 12 of p and q,
/// whatever the table and `out`.
pub fn range(
    (bytes, count, opening): (&[u8], usize, Opening),
    (table, entries): (&[u64], usize),
    Range { start: p, end: q }: Range<usize>,
    out: &mut [u32],
) -> Read<()> {
    judge_count(count)?;
    refuse_if(p > q || q > count, refusal::COUNTS)?;
    if p == q {
        return Ok(());
    }
    refuse_if(entries > lent(table), refusal::COUNTS)?;
    let mut reader = started(bytes, opening, &table[..ENTRY_WORDS * entries], p)?;
    refuse_if(out.len() < q - p, refusal::OUTPUT)?;
    let mut values = vec![];
    while reader.length < q {
        let (row, next) = reader.read_on()?;
        if reader.length >= p {
            values.push(row.value);
        }
        reader = next;
    }
    out[..values.len()].copy_from_slice(&values);
    Ok(())
}

/// The reader where "the entry at or before p" says. Refused with 13 is "one that is missing, has its place beyond
/// the stream's bits, or has a window neither the opening one nor of leading + trailing at most 31", or whose last
/// value is no 32 bits. "With a first value, entry 0 and no other begins at the raw value": a reader takes its first
/// value so where it has read none.
fn started<'a>(stream: &'a [u8], opening: Opening, table: &[u64], p: usize) -> Answer<Reader<'a>> {
    let number = p / EVERY;
    let entry = table.chunks_exact(ENTRY_WORDS).nth(number);
    let &[place, last_value, leading, trailing] = entry.ok_or(refusal::TABLE)? else {
        unreachable!("four words to an entry");
    };
    let small = |zeros: u64| u8::try_from(zeros).map_err(|_| refusal::TABLE);
    let window = Window {
        leading: small(leading)?,
        trailing: small(trailing)?,
    };
    let last_value = u32::try_from(last_value).map_err(|_| refusal::TABLE)?;
    let is_within = place <= 8 * stream.len() as u64;
    // A window of its own may stand in entry 0 too, as it may behind a value.
    refuse_if(!is_within || !window.may_stand(1), refusal::TABLE)?;
    Ok(Reader {
        stream,
        with_first: opening == Opening::WithFirst,
        last_value,
        window,
        place: place as usize,
        length: EVERY * number,
    })
}
