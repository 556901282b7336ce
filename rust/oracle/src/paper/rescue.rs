//! Rescue, "go on from whatever arrived": the writer behind the whole values of a stream that was cut anywhere.

use super::macaque_v::{MacaqueV, Opening, Reader, Row};
use super::models::ErrorBound;
use super::place_table::{Entry, entries_for, entries_of, lent, put_entries};
use super::{Answer, Read, judge_count, refusal, refuse_if};

/// What is handed to a rescue besides its buffer and its table.
#[derive(Clone, Copy, Debug)]
pub struct Rescue {
    /// How many bytes arrived.
    pub used: usize,
    /// How many values are kept at most: as many as the upload has.
    pub limit: usize,
    pub opening: Opening,
    pub error_bound: ErrorBound,
}

impl Rescue {
    /// What is refused before the stream is read, over a buffer of so many bytes: 1 3 12.
    pub fn judge(&self, bytes: usize) -> Answer<()> {
        self.error_bound.judge()?;
        judge_count(self.limit)?;
        refuse_if(self.used > bytes, refusal::COUNTS)
    }

    /// The state behind what is kept: as many whole values as arrived, up to the limit. What follows them is dropped:
    /// it is zeroed in the byte that they end in, and else stays where it is. Refusals: 1 3 12, then 6 and 7.
    pub fn rescue(&self, buffer: &mut [u8]) -> Read<MacaqueV> {
        let (state, _) = self.kept(buffer)?;
        Ok(state)
    }

    /// The same with a table, of which nothing is looked at: its front becomes the entries of what is kept. The state,
    /// and how many entries are in use. Refusals: 1 3 12; 4 for a table without room for as many entries as the limit
    /// asks for, whatever arrived; then 6 and 7.
    pub fn with_table(&self, buffer: &mut [u8], table: &mut [u64]) -> Read<(MacaqueV, usize)> {
        self.judge(buffer.len())?;
        refuse_if(lent(table) < entries_for(self.limit), refusal::OUTPUT)?;
        let (state, places) = self.kept(buffer)?;
        put_entries(table, 0, &places);
        Ok((state, places.len()))
    }

    /// The state behind what is kept, and the entries of it.
    fn kept(&self, buffer: &mut [u8]) -> Read<(MacaqueV, Vec<Entry>)> {
        self.judge(buffer.len())?;
        let fresh = MacaqueV::new(self.error_bound, self.opening)?;
        let (before, rows): (Vec<Reader>, Vec<Row>) =
            self.whole(&buffer[..self.used])?.into_iter().unzip();
        let places = entries_of(&before);
        Ok((fresh.behind(&rows, buffer), places))
    }

    /// The whole values, each with the reader before it: until there are as many as the limit, or the bytes end inside
    /// the next one or before it. A code that no writer makes is damage and no cut. Refusals: 6 7.
    fn whole<'a>(&self, arrived: &'a [u8]) -> Read<Vec<(Reader<'a>, Row)>> {
        let (mut reader, mut whole) = (Reader::open(arrived, self.opening), vec![]);
        while whole.len() < self.limit {
            let (row, next) = match reader.next_value() {
                Ok(read) => read,
                Err(fault) if fault.number == refusal::ENDS_EARLY => break,
                Err(fault) => return Err(fault),
            };
            whole.push((reader, row));
            reader = next;
        }
        Ok(whole)
    }
}
