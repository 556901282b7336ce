//! What an example is.

use modelardb_rattle::{Fault, Refusal};

/// The number of a refusal, its value and its place.
type Refused = (u32, u32, usize);

/// What a call answers: its values, as bits or bytes, or its refusal.
pub type Said = Result<Vec<u64>, Refused>;

/// An example: the documents' words, the call, and the answer that they give.
pub type Example = (&'static str, fn() -> Said, Result<&'static [u64], Refused>);

/// The answer of a safe call.
pub fn said<A, W: Into<u64>>(answer: Result<A, Refusal>, words: impl FnOnce(A) -> Vec<W>) -> Said {
    let answer = answer.map(|answer| words(answer).into_iter().map(W::into).collect());
    answer.map_err(|refusal| refused(refusal.fault()))
}

/// The answer of a call on rows: what it told, and what it left.
pub fn left(fault: Fault, words: Vec<u64>) -> Said {
    match fault {
        Fault::ACCEPTED => Ok(words),
        _ => Err(refused(fault)),
    }
}

fn refused(fault: Fault) -> Refused {
    (fault.number, fault.value, fault.place)
}
