//! How large a stream gets: the two calls on every count; lists that take as much as they answer; and any list under any
//! bound, and behind any state, which takes no more.

use super::both::{self, At, MOST_BITS, MOST_BYTES};
use super::causes::MODES;
use super::states::any_state;
use crate::context::Context;
use crate::face::{self, numbered, safe_opening};
use crate::inputs::ONE;
use crate::lent::{STALE, STALE_WORD};
use crate::parts::library_table::{both as beside, room};
use modelardb_rattle::ffi::STATE_WORDS;
use modelardb_rattle::{self as library, Fault};
use oracle::paper::MOST_VALUES;
use oracle::paper::macaque_v::Opening;
use oracle::paper::models::ErrorBound::{self, Lossless};
use oracle::paper::refusal::OUTPUT;
use oracle::paper::size::{largest, most_bits, most_bytes};

const OPENINGS: [Opening; 5] = [
    Opening::WithFirst,
    Opening::On(0),
    Opening::On(ONE),
    Opening::On(0x7FC1_2345),
    Opening::On(0xFFFF_FFFF),
];

/// Counts above the limit, some of them of more bits than a word can count.
const ABOVE: [usize; 7] = [
    MOST_VALUES + 1,
    MOST_VALUES + 2,
    1 << 32,
    (1 << 32) + 1,
    usize::MAX / 45,
    usize::MAX / 44 + 1,
    usize::MAX,
];

pub fn large(context: &mut Context) {
    for count in (0..=MOST_VALUES).chain(ABOVE) {
        by_the_calls(context, count);
    }
    for opening in OPENINGS {
        for count in [1, 2, 3, 64, 1_000, MOST_VALUES] {
            let fresh = Fresh::new(context, Lossless, opening, largest(count, opening));
            let place = fresh.every_way(context);
            fresh.same(context, "the bound reached", fresh.most, place);
            fresh.not_in_a_byte_less(context);
        }
    }
    for _ in 0..context.rounds(3_000) {
        let count = context.inputs.below(100) as usize;
        let opening = context.inputs.opening();
        let values = match context.inputs.below(3) {
            0 => largest(count, opening),
            _ => context.inputs.values(count),
        };
        let bound = context.inputs.bound_for(&values);
        Fresh::new(context, bound, opening, values).every_way(context);
    }
    for _ in 0..context.rounds(100_000) {
        behind_any_state(context);
    }
}

/// Each call in each mode, and by the safe type.
fn by_the_calls(context: &mut Context, count: usize) {
    for mode in MODES {
        both::most(context, MOST_BITS, count, mode);
        both::most(context, MOST_BYTES, count, mode);
    }
    for opening in [Opening::WithFirst, Opening::On(ONE)] {
        let safe = safe_opening(opening);
        let bits = numbered(library::MacaqueV::most_bits(count, safe));
        let bytes = numbered(library::MacaqueV::most_bytes(count, safe));
        let paper = (most_bits(count, opening), most_bytes(count, opening));
        let input = || format!("the most of {count} values {opening:X?}");
        context.same("safe type", paper, (bits, bytes), input);
    }
}

/// A list that a fresh writer is handed, and how many bits any as long takes at most.
struct Fresh {
    bound: ErrorBound,
    opening: Opening,
    values: Vec<u32>,
    row: Vec<u64>,
    most: u64,
}

impl Fresh {
    fn new(context: &mut Context, bound: ErrorBound, opening: Opening, values: Vec<u32>) -> Self {
        let words = (face::bound_words(bound), face::opening_words(opening));
        let (_, row) = both::opened(context, words.0, words.1, &[STALE_WORD; STATE_WORDS]);
        let most = most_bits(values.len(), opening).expect("within the limit") as u64;
        Self {
            bound,
            opening,
            values,
            row,
            most,
        }
    }

    /// A buffer of just so many bytes.
    fn buffer(&self) -> Vec<u8> {
        vec![STALE; self.most.div_ceil(8) as usize]
    }

    fn same<A: PartialEq + std::fmt::Debug>(
        &self,
        context: &mut Context,
        whose: &str,
        expected: A,
        found: A,
    ) {
        context.same(whose, expected, found, || {
            let (bound, opening, values) = (self.bound.row(), self.opening, &self.values);
            format!("how large {bound:X?} {opening:X?} {values:08X?}")
        });
    }

    /// In that buffer nothing is refused, in one go, in pieces, with a table, and with bounds that change, and no bit more
    /// is taken. The place behind them.
    fn every_way(&self, context: &mut Context) -> u64 {
        let place = self.in_one_go(context);
        self.same(context, "the bound kept", true, place <= self.most);
        let pieces = self.in_pieces(context, |_, _| self.bound);
        self.same(context, "in pieces", place, pieces);
        let changed = self.in_pieces(context, |context, values| context.inputs.bound_for(values));
        self.same(context, "with other bounds", true, changed <= self.most);
        let tabled = self.with_a_table(context);
        self.same(context, "with a table", place, tabled);
        place
    }

    fn in_one_go(&self, context: &mut Context) -> u64 {
        let (fault, row, _) = both::written(context, &self.row, &self.values, &self.buffer());
        self.same(context, "in one go", Fault::ACCEPTED, fault);
        row[8]
    }

    /// Where the last byte is not there, it is refused, and all is as it was.
    fn not_in_a_byte_less(&self, context: &mut Context) {
        let mut buffer = self.buffer();
        buffer.pop();
        let left = both::written(context, &self.row, &self.values, &buffer);
        let expected = (OUTPUT.into(), self.row.clone(), buffer);
        self.same(context, "a byte less", expected, left);
    }

    /// In pieces; behind each one it is reopened a few values back, with a bound for the next, and written on.
    fn in_pieces(
        &self,
        context: &mut Context,
        bound_for: impl Fn(&mut Context, &[u32]) -> ErrorBound,
    ) -> u64 {
        let (mut row, mut buffer) = (self.row.clone(), self.buffer());
        let count = self.values.len();
        let mut end = 0;
        while end < count {
            let begin = end - context.inputs.below(4).min(row[9]) as usize;
            end += (count / 8 + 1 + context.inputs.below(3) as usize).min(count - end);
            let values = &self.values[begin..end];
            let bound = bound_for(context, values);
            let at = At {
                used: row[8].div_ceil(8) as usize,
                count: row[9] as usize,
                k: begin,
                opening: face::opening_words(self.opening),
                bound: face::bound_words(bound),
            };
            let (reopened, on, cut) = both::reopened(context, &buffer, at, &row);
            let (written, after, bytes) = both::written(context, &on, values, &cut);
            let faults = [reopened, written];
            self.same(context, "a piece", [Fault::ACCEPTED; 2], faults);
            (row, buffer) = (after, bytes);
        }
        row[8]
    }

    fn with_a_table(&self, context: &mut Context) -> u64 {
        let before = beside::Writer {
            row: self.row.clone(),
            buffer: self.buffer(),
            table: room(self.values.len(), 0),
        };
        let (fault, left) = beside::written(context, &before, &self.values);
        self.same(context, "beside a table", Fault::ACCEPTED, fault);
        left.row[8]
    }
}

/// Behind a state that may be used, some values take at most as many bits as they do without a first one. In a byte less
/// they are counted.
fn behind_any_state(context: &mut Context) {
    let (row, mut buffer) = any_state(context);
    let count = context.inputs.below(9) as usize;
    let values = if context.inputs.flip() {
        largest(count, Opening::On(row[4] as u32))
    } else {
        context.inputs.values(count)
    };
    let most = most_bits(count, Opening::On(0)).expect("within the limit") as u64;
    // No buffer is long enough for the greatest places.
    let end = row[8].min(1 << 12) + most;
    buffer.resize(end.div_ceil(8) as usize, STALE);
    let (fault, after, _) = both::written(context, &row, &values, &buffer);
    let is_kept = fault != OUTPUT.into() && after[8] <= row[8].saturating_add(most);
    let input = || format!("behind {row:X?}: {values:08X?}");
    context.same("the bound kept", true, is_kept, input);
    buffer.pop();
    both::written(context, &row, &values, &buffer);
}
