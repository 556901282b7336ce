//! An upload as it was sent, and what is left of it that was cut.

use super::every_way;
use crate::context::Context;
use crate::face::row_of;
use crate::lent::{STALE, STALE_VALUE, STALE_WORD};
use crate::parts::library_stream::both as plain;
use crate::parts::library_stream::room_for;
use crate::parts::library_table::Tabled;
use crate::parts::library_table::both::{Writer, written};
use crate::parts::library_table::resumed::in_one_run;
use modelardb_rattle::Fault;
use modelardb_rattle::ffi::{ENTRY_WORDS, STATE_WORDS};
use oracle::paper::MOST_VALUES;
use oracle::paper::macaque_v::{MacaqueV, Opening};
use oracle::paper::models::ErrorBound;
use oracle::paper::place_table::entries_for;
use oracle::paper::rescue::Rescue;

pub struct Upload {
    bound: ErrorBound,
    opening: Opening,
    tabled: Tabled,
    /// All values as the whole stream reads.
    read: Vec<u32>,
    /// The paper's writer before any value, and behind each.
    states: Vec<MacaqueV>,
}

impl Upload {
    pub fn new(context: &mut Context, bound: ErrorBound, opening: Opening, values: &[u32]) -> Self {
        let tabled = Tabled::new(context, bound, opening, values);
        let read = tabled.values(context);
        let mut bytes = vec![STALE; room_for(values.len())];
        let mut states = vec![MacaqueV::new(bound, opening).expect("an allowed bound")];
        for (number, &value) in values.iter().enumerate() {
            let next = states[number].compress_values(&[value], &mut bytes);
            states.push(next.expect("room"));
        }
        Self {
            bound,
            opening,
            tabled,
            read,
            states,
        }
    }

    /// Of so many values, of any bound and opening.
    pub fn any(context: &mut Context, count: usize) -> Self {
        let values = context.inputs.values(count);
        let (bound, opening) = (context.inputs.bound_for(&values), context.inputs.opening());
        Self::new(context, bound, opening, &values)
    }

    pub fn count(&self) -> usize {
        self.tabled.count()
    }

    /// How many bytes were sent.
    pub fn size(&self) -> usize {
        self.tabled.stream.bytes.len()
    }

    /// How many values have their last bit among so many bytes.
    fn whole(&self, used: usize) -> usize {
        self.states.partition_point(|state| state.place <= 8 * used) - 1
    }

    /// Limits around what arrived, around the count, and around the most.
    fn limits(&self, used: usize) -> Vec<usize> {
        let (whole, count) = (self.whole(used), self.count());
        let mut limits = vec![
            0,
            whole.saturating_sub(1),
            whole,
            count.saturating_sub(1),
            count,
            count + 1,
            count + 3,
            MOST_VALUES,
            MOST_VALUES + 1,
        ];
        limits.sort();
        limits.dedup();
        limits
    }

    /// Cut at a byte: rescued with limits of all kinds, and gone on with.
    pub fn cut(&self, context: &mut Context, used: usize) {
        for limit in self.limits(used) {
            self.rescued(context, used, limit);
        }
        self.gone_on(context, used);
    }

    /// Cut at a byte, with one limit. What stands behind it is the rest of the upload, or stale.
    fn rescued(&self, context: &mut Context, used: usize, limit: usize) -> Writer {
        let mut buffer = [&self.tabled.stream.bytes[..], &[STALE; 3]].concat();
        if context.inputs.flip() {
            buffer[used..].fill(STALE);
        }
        let rescue = Rescue {
            used,
            limit,
            opening: self.opening,
            error_bound: self.bound,
        };
        let (fault, left) = every_way(context, &buffer, &rescue);
        let whole = self.whole(used);
        if limit <= MOST_VALUES && (limit <= self.count() || whole < self.count()) {
            self.is_kept(context, &rescue, fault, &left, whole.min(limit));
        }
        left
    }

    /// Kept are so many values: the state is the writer's behind them, the table theirs, and the bytes in use read back
    /// as they.
    fn is_kept(
        &self,
        context: &mut Context,
        rescue: &Rescue,
        fault: Fault,
        left: &Writer,
        kept: usize,
    ) {
        let input = || format!("{rescue:X?} of {:02X?}", self.tabled.stream.bytes);
        let state = self.states[kept];
        let (entries, own) = (entries_for(kept), &self.tabled.table.words);
        let words = ENTRY_WORDS * entries;
        let expected = (Fault::ACCEPTED, &row_of(state)[..], entries, &own[..words]);
        let found = (
            fault,
            &left.row[..STATE_WORDS],
            left.table.entries,
            &left.table.words[..words],
        );
        context.same("what arrived", expected, found, input);
        let bytes = &left.buffer[..state.place.div_ceil(8)];
        let stream = (bytes, kept, self.tabled.stream.opening);
        let out = vec![STALE_VALUE; kept];
        let read = plain::read(context, plain::GRID, stream, &out);
        let values = (Fault::ACCEPTED, self.read[..kept].to_vec());
        context.same("read back", values, read, input);
    }

    /// Rescued with its count: written on with the rest it is the whole upload, and with other values, now and then, one
    /// run over what was kept and those.
    fn gone_on(&self, context: &mut Context, used: usize) {
        let left = self.rescued(context, used, self.count());
        let (kept, stream) = (self.whole(used), &self.tabled.stream);
        let rest = &stream.values[kept..];
        let row = [&stream.row[..], &[STALE_WORD]].concat();
        let end = [&stream.bytes[..], &left.buffer[self.size()..]].concat();
        let whole = (Fault::ACCEPTED, row, end);
        plain::written_as(context, &whole, &left.row, rest, &left.buffer);
        as_one_run(context, &self.tabled, left.clone(), rest);
        if context.inputs.below(8) == 0 && kept < MOST_VALUES {
            let more = 1 + context.inputs.below(70) as usize;
            let others = context.inputs.values(more.min(MOST_VALUES - kept));
            let all = [&stream.values[..kept], &others].concat();
            let fresh = Tabled::new(context, self.bound, self.opening, &all);
            as_one_run(context, &fresh, left, &others);
        }
    }
}

/// A rescued writer, written on: bytes, state and table are those of one run.
fn as_one_run(context: &mut Context, fresh: &Tabled, mut left: Writer, values: &[u32]) {
    let size = fresh.stream.bytes.len().max(left.buffer.len());
    left.buffer.resize(size, STALE);
    let words = fresh.table.words.len().max(left.table.words.len());
    left.table.words.resize(words, STALE_WORD);
    let (_, left) = written(context, &left, values);
    in_one_run(context, fresh, left, "behind a rescue");
}
