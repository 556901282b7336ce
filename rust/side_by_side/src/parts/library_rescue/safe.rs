//! The safe types over the same calls.

use crate::context::Context;
use crate::face::{safe_bound, safe_opening};
use crate::parts::library_stream::said;
use crate::parts::library_table::both::Writer;
use modelardb_rattle::ffi::{ENTRY_WORDS, STATE_WORDS};
use modelardb_rattle::{self as library, Fault, Refusal};
use oracle::paper::rescue::Rescue;

/// What a safe type says: its bound, and the words of its row behind that and of its table; and the buffer.
type Said = (Result<(library::ErrorBound, Vec<u64>), Fault>, Vec<u8>);

/// What the safe types say is what the calls on words answered and left.
pub fn rescued(
    context: &mut Context,
    buffer: &[u8],
    rescue: &Rescue,
    (fault, left): (Fault, &Writer),
) {
    let bound = safe_bound(rescue.error_bound);
    let expected = |words: &[u64]| {
        let kept = (fault == Fault::ACCEPTED).then(|| (bound, words.to_vec()));
        (kept.ok_or(fault), left.buffer.clone())
    };
    let input = || format!("safe types rescue {rescue:X?} of {buffer:02X?}");
    let in_row = &left.row[2..STATE_WORDS];
    context.same("safe type", expected(in_row), plain(buffer, rescue), input);
    let entries = left.table.words.chunks(ENTRY_WORDS);
    let in_use: Vec<&[u64]> = entries.take(left.table.entries).collect();
    let with_table = expected(&[in_row, &in_use.concat()].concat());
    context.same("safe table", with_table, tabled(buffer, rescue), input);
}

fn plain(buffer: &[u8], rescue: &Rescue) -> Said {
    let &Rescue { used, limit, .. } = rescue;
    let (opening, bound) = opened(rescue);
    let mut buffer = buffer.to_vec();
    let writer = library::MacaqueV::rescue(&mut buffer, used, limit, opening, bound);
    let words = writer.map(|writer| (writer.error_bound(), said(&writer).to_vec()));
    (words.map_err(Refusal::fault), buffer)
}

fn tabled(buffer: &[u8], rescue: &Rescue) -> Said {
    let &Rescue { used, limit, .. } = rescue;
    let (opening, bound) = opened(rescue);
    let mut buffer = buffer.to_vec();
    let writer = library::TabledWriter::rescue(&mut buffer, used, limit, opening, bound);
    let words = writer.map(|both| {
        let (writer, table) = both.into_parts();
        let words = [&said(&writer)[..], table.words()].concat();
        (writer.error_bound(), words)
    });
    (words.map_err(Refusal::fault), buffer)
}

/// How it opens and within which bound, as the safe types take it.
fn opened(rescue: &Rescue) -> (library::Opening, library::ErrorBound) {
    (safe_opening(rescue.opening), safe_bound(rescue.error_bound))
}
