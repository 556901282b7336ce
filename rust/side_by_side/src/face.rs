//! The C face by document 01: the paper's program behind rows of words, here that of MacaqueV. Each
//! function is called as its namesake of the compiled library is, and answers as that does.

pub mod choice;
pub mod fit;
pub mod reader;
pub mod segments;
pub mod table;

use modelardb_rattle::ffi::{STATE_WORDS, Words};
use modelardb_rattle::{Fault, Refusal};
use oracle::paper::macaque_v::{self, MacaqueV, Opening, Window};
use oracle::paper::models::ErrorBound::{self, Absolute, Lossless, Relative};
use oracle::paper::refusal::{BOUND, COUNTS, LIMIT, OUTPUT, STATE};
use oracle::paper::rescue::Rescue;
use oracle::paper::{Answer, Fault as Refused, Read, judge_count, refuse_if, size};

pub fn new(bound: Words, opening: Words, row: &mut [u64]) -> Fault {
    told(|| {
        let bound = allowed_bound(bound)?;
        let opening = opening_in(opening)?;
        refuse_if(row.len() < STATE_WORDS, OUTPUT)?;
        put(row, MacaqueV::new(bound, opening)?);
        Ok(())
    })
}

pub fn compress_values(row: &mut [u64], values: &[u32], buffer: &mut [u8]) -> Fault {
    told(|| {
        let after = state_in(row)?.compress_values(values, buffer)?;
        put_written(row, after);
        Ok(())
    })
}

pub fn reopen(
    buffer: &mut [u8],
    used: usize,
    (count, k): (usize, usize),
    opening: Words,
    bound: Words,
    row: &mut [u64],
) -> Fault {
    told(|| {
        let bound = allowed_bound(bound)?;
        let opening = opening_in(opening)?;
        judge_count(count)?;
        refuse_if(k > count || used > buffer.len(), COUNTS)?;
        refuse_if(row.len() < STATE_WORDS, OUTPUT)?;
        let state = MacaqueV::reopen(buffer, used, count, k, opening, bound)?;
        put(row, state);
        Ok(())
    })
}

pub fn rescue(
    buffer: &mut [u8],
    used: usize,
    limit: usize,
    opening: Words,
    bound: Words,
    row: &mut [u64],
) -> Fault {
    told(|| {
        let rescue = rescue_in(used, limit, opening, bound)?;
        judge_rescue(&rescue, buffer, row)?;
        put(row, rescue.rescue(buffer)?);
        Ok(())
    })
}

/// What is handed to a rescue.
fn rescue_in(used: usize, limit: usize, opening: Words, bound: Words) -> Answer<Rescue> {
    Ok(Rescue {
        error_bound: allowed_bound(bound)?,
        opening: opening_in(opening)?,
        used,
        limit,
    })
}

/// What is refused before the stream is read: 1 3 12, and 4 for the row.
fn judge_rescue(rescue: &Rescue, buffer: &[u8], row: &[u64]) -> Answer<()> {
    rescue.judge(buffer.len())?;
    refuse_if(row.len() < STATE_WORDS, OUTPUT)
}

pub fn grid(bytes: &[u8], count: usize, opening: Words, out: &mut [u32]) -> Fault {
    told(|| macaque_v::grid(bytes, count, opening_in(opening)?, out))
}

pub fn sum(bytes: &[u8], count: usize, opening: Words, out: &mut [u32]) -> Fault {
    told(|| {
        let opening = opening_in(opening)?;
        judge_count(count)?;
        refuse_if(out.is_empty(), OUTPUT)?;
        out[0] = macaque_v::sum(bytes, count, opening)?;
        Ok(())
    })
}

pub fn most_bits(count: usize, mode: u32, bits: &mut usize) -> Fault {
    told(|| {
        *bits = size::most_bits(count, opening_in((mode, 0))?)?;
        Ok(())
    })
}

pub fn most_bytes(count: usize, mode: u32, bytes: &mut usize) -> Fault {
    told(|| {
        *bytes = size::most_bytes(count, opening_in((mode, 0))?)?;
        Ok(())
    })
}

fn told(call: impl FnOnce() -> Read<()>) -> Fault {
    call().map_or_else(fault, |()| Fault::ACCEPTED)
}

/// The paper's refusal as it crosses the C face.
pub fn fault(refused: Refused) -> Fault {
    Fault {
        number: refused.number,
        value: refused.value as u32,
        place: refused.place,
    }
}

/// A bound's two words.
pub fn bound_words(bound: ErrorBound) -> Words {
    let [kind, bits] = bound.row();
    (kind as u32, bits as u32)
}

/// A bound as the safe types take it.
pub fn safe_bound(bound: ErrorBound) -> modelardb_rattle::ErrorBound {
    match bound {
        Lossless => modelardb_rattle::ErrorBound::Lossless,
        Absolute(bound) => modelardb_rattle::ErrorBound::Absolute(bound),
        Relative(bound) => modelardb_rattle::ErrorBound::Relative(bound),
    }
}

/// An opening as the safe types take it.
pub fn safe_opening(opening: Opening) -> modelardb_rattle::Opening {
    match opening {
        Opening::WithFirst => modelardb_rattle::Opening::First,
        Opening::On(bits) => modelardb_rattle::Opening::on_bits(bits),
    }
}

/// An answer of the safe types, a refusal as its number, for calls that do not read a stream.
pub fn numbered<A>(answer: Result<A, Refusal>) -> Answer<A> {
    answer.map_err(Refusal::number)
}

/// An answer of the safe types, a refusal as number, value and place.
pub fn placed<A>(answer: Result<A, Refusal>) -> Read<A> {
    answer.map_err(|refusal| {
        let Fault {
            number,
            value,
            place,
        } = refusal.fault();
        Refused {
            number,
            value: value as usize,
            place,
        }
    })
}

/// An opening's two words.
pub fn opening_words(opening: Opening) -> Words {
    match opening {
        Opening::WithFirst => (0, 0),
        Opening::On(value) => (1, value),
    }
}

/// "A bound's kind above 2 [is refused] with 1".
fn allowed_bound((kind, bits): Words) -> Answer<ErrorBound> {
    let value = f32::from_bits(bits);
    let bound = match kind {
        0 => Lossless,
        1 => Absolute(value),
        2 => Relative(value),
        _ => return Err(BOUND),
    };
    bound.judge().map(|()| bound)
}

/// A row too short for the state that is read from it stands for none: 2, behind 1 for a bound that is in it,
/// by the places where the words of bounds begin.
pub fn judge_words(row: &[u64], words: usize, bounds: &[usize]) -> Answer<()> {
    if row.len() >= words {
        return Ok(());
    }
    for &place in bounds {
        if let Some(&[kind, bits]) = row.get(place..place + 2) {
            fit::bound_in(kind, bits).judge()?;
        }
    }
    Err(STATE)
}

/// "A mode above 1 with 3".
fn opening_in((mode, value): Words) -> Answer<Opening> {
    match mode {
        0 => Ok(Opening::WithFirst),
        1 => Ok(Opening::On(value)),
        _ => Err(LIMIT),
    }
}

/// The state that a row stands for: 1 where its bound does not, 2 where it is too short or another word is too
/// large.
fn state_in(row: &[u64]) -> Answer<MacaqueV> {
    judge_words(row, STATE_WORDS, &[0])?;
    let bits = |word: usize| u32::try_from(row[word]).map_err(|_| STATE);
    let zeros = |word: usize| u8::try_from(row[word]).map_err(|_| STATE);
    let half = |word: usize| u32::try_from(row[word]).map_err(|_| BOUND);
    let error_bound = allowed_bound((half(0)?, half(1)?))?;
    refuse_if(row[7] > 1, STATE)?;
    Ok(MacaqueV {
        error_bound,
        with_first: row[7] == 1,
        min_value: bits(2)?,
        max_value: bits(3)?,
        last_value: bits(4)?,
        window: Window {
            leading: zeros(5)?,
            trailing: zeros(6)?,
        },
        place: row[8] as usize,
        length: row[9] as usize,
        sum: bits(10)?,
    })
}

/// The words of a state after a write. Those of the bound and of the mode stay as they are handed in.
fn put_written(row: &mut [u64], after: MacaqueV) {
    let kept = [row[0], row[1], row[7]];
    put(row, after);
    [row[0], row[1], row[7]] = kept;
}

/// The state's words to the front of the row.
fn put(row: &mut [u64], state: MacaqueV) {
    row[..STATE_WORDS].copy_from_slice(&row_of(state));
}

/// The words of a state.
pub fn row_of(state: MacaqueV) -> [u64; STATE_WORDS] {
    let [kind, bits] = state.error_bound.row();
    [
        kind,
        bits,
        state.min_value.into(),
        state.max_value.into(),
        state.last_value.into(),
        state.window.leading.into(),
        state.window.trailing.into(),
        state.with_first.into(),
        state.place as u64,
        state.length as u64,
        state.sum.into(),
    ]
}
