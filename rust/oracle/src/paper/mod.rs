//! Document 01 as a plain program: slow, bit by bit, in the order of the paper's sentences, and where document
//! 02 changes one of them by both, as [`rules`] says. Values are the 32 bits of an f32 in a u32. A refused call
//! answers why and has changed nothing: states go in by value, and lent memory is written last.

pub mod bits;
pub mod comparing;
pub mod listing;
pub mod macaque_v;
pub mod models;
pub mod numbers;
pub mod place_table;
pub mod pmc_mean;
pub mod rescue;
pub mod rules;
pub mod segments;
pub mod size;
pub mod swing;
pub mod types;

/// What a call answers: its values, or the number of its refusal.
pub type Answer<T> = Result<T, u32>;

/// What a call that reads a stream answers: its values, or why and where that was refused.
pub type Read<T> = Result<T, Fault>;

/// "Refusals 5 to 8 shall carry the number of the value being read, counted from 0, and the bit place
/// where its code begins; for 8 the value number is the count and the place is that of the first set
/// padding bit, or of the first extra byte's first bit if no padding bit is set. All callers pass both
/// on unchanged ...; other numbers ... show 0 and 0."
#[derive(Clone, Copy, Debug, PartialEq)]
pub struct Fault {
    pub number: u32,
    pub value: usize,
    pub place: usize,
}

impl From<u32> for Fault {
    /// A refusal that carries neither.
    fn from(number: u32) -> Fault {
        Fault {
            number,
            value: 0,
            place: 0,
        }
    }
}

/// "At most 65,536 values a call or stream".
pub const MOST_VALUES: usize = 65_536;
/// "1 to 255 residuals".
pub const MOST_RESIDUALS: usize = 255;
/// "Timestamps from −2^52 to 2^52".
pub const TIME_LIMIT: i64 = 1 << 52;
/// "Metadata size M, given by the caller, 1 to 65,535".
pub const MOST_METADATA: u32 = 65_535;

/// The causes of a refusal and their numbers: the table "Refusal numbers".
pub mod refusal {
    /// Bound not allowed.
    pub const BOUND: u32 = 1;
    /// State not allowed.
    pub const STATE: u32 = 2;
    /// A number above its limit, or M below 1.
    pub const LIMIT: u32 = 3;
    /// Lent output too short.
    pub const OUTPUT: u32 = 4;
    /// Stream ends early.
    pub const ENDS_EARLY: u32 = 5;
    /// Keep code before any window.
    pub const NO_WINDOW: u32 = 6;
    /// Meaningful bits 0, or above 32 with its leading zeros.
    pub const WINDOW: u32 = 7;
    /// A set padding bit or a further byte.
    pub const LEFTOVER: u32 = 8;
    /// Parameter length or flag, or residual count byte, not allowed.
    pub const FORM: u32 = 9;
    /// Timestamps out of limit, or not increasing.
    pub const TIMES: u32 = 10;
    /// Nothing to model, or a line with ends that differ, at least one not finite.
    pub const NO_MODEL: u32 = 11;
    /// k above count, used above buffer, unequal lengths, or no model value left.
    pub const COUNTS: u32 = 12;
    /// Table doesn't match.
    pub const TABLE: u32 = 13;
}

/// Refuses with `number` where its cause applies. The calls judge in the order 1, 2, 3, 12, 13, 4, 10,
/// 9, 11, and after those 5 to 8 at the first place in the stream.
pub fn refuse_if(applies: bool, number: u32) -> Answer<()> {
    if applies { Err(number) } else { Ok(()) }
}

/// Refuses a number of values above the limit.
pub fn judge_count(count: usize) -> Answer<()> {
    refuse_if(count > MOST_VALUES, refusal::LIMIT)
}

/// Refuses a metadata size out of its limits.
pub fn judge_metadata(m: u32) -> Answer<()> {
    refuse_if(!(1..=MOST_METADATA).contains(&m), refusal::LIMIT)
}

/// Whether a timestamp keeps the time limits.
pub fn time_in_limits(timestamp: i64) -> bool {
    (-TIME_LIMIT..=TIME_LIMIT).contains(&timestamp)
}

/// Refuses times out of limit, or not strictly increasing.
pub fn judge_times(timestamps: &[i64]) -> Answer<()> {
    let in_limits = timestamps.iter().all(|&t| time_in_limits(t));
    let increasing = timestamps.windows(2).all(|pair| pair[0] < pair[1]);
    refuse_if(!in_limits || !increasing, refusal::TIMES)
}
