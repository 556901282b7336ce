//! Why a call is refused, and where a stream broke.

use std::error::Error;
use std::fmt::{Display, Formatter, Result};

/// The thirteen causes, in the order of their numbers and under the names of the proved library. Where
/// several apply, the first is answered in the order 1, 2, 3, 12, 13, 4, 10, 9, 11, and then 5 to 8 by the
/// first place in the stream; a check of a place table judges what its entries hold behind those. A refused
/// call has changed nothing that it was lent.
///
/// The four of a stream, 5 to 8, say where reading stood when it could not go on: `value` is the number
/// of the value that was being read, counted from 0, and `place` the bit at which its code begins,
/// counted from the stream's first. In a segment the stream is that of the residuals, so value 0 is the
/// first residual. What was altered can stand anywhere before that: a changed bit may read as other
/// values for a while. So values in front of `value` are no more to be trusted than those behind it,
/// unless it is known that no bit was changed, as where a stream was only cut short, and that the opening
/// is its writer's. A [range](crate::PlaceTable::range) by a place table that is not the stream's can be
/// refused with 5 to 7 where the stream is right: [check](crate::PlaceTable::check) the table first.
///
/// ```
/// use modelardb_rattle::{Opening, Refusal, macaque_v};
///
/// // 1.0, 1.0, 2.0, and the last byte did not arrive: the third value, whose code begins at bit 34.
/// let cut = [0x3F, 0x80, 0x00, 0x00, 0xB0, 0x91];
/// let refusal = macaque_v::sum(&cut, 3, Opening::First).unwrap_err();
/// assert_eq!(refusal, Refusal::EndsEarly { value: 2, place: 34 });
/// let told = "refused 5 at value 2, bit 34: the stream ends before its last value";
/// assert_eq!(refusal.to_string(), told);
/// ```
///
/// Further requests may add causes.
#[derive(Clone, Copy, Debug, PartialEq, Eq, Hash)]
#[non_exhaustive]
pub enum Refusal {
    /// 1: the bound is not allowed. An absolute one must be finite and above 0, a relative one above 0
    /// and at most 100; for no error at all there is [`ErrorBound::Lossless`](crate::ErrorBound).
    BoundNotAllowed,
    /// 2: the state's fields do not go together, or not with what it was lent. Through the safe types
    /// there is one cause: a writer's buffer is shorter than the stream that it has written. Lend it
    /// the buffer that holds those bytes.
    StateNotAllowed,
    /// 3: a number is above its limit, or the metadata size is 0. A stream, a model and a call take at
    /// most 65,536 values, a segment 255 residuals and model 0 or 1, the metadata size is at most
    /// 65,535, and the mode in a file of an upload 0 or 1. Begin a new stream, model or segment with what does not fit in.
    OverLimit,
    /// 4: the lent output does not hold the answer. Lend a longer one; of a writer, with the bytes in use copied to its
    /// front, since no call can see that they are missing. For all values that a fresh writer is handed,
    /// [`MacaqueV::most_bytes`](crate::MacaqueV::most_bytes) of their number are always enough.
    OutputTooShort,
    /// 5: the stream ends before its last value. Bytes are missing, the count is too high, or the bytes
    /// or the opening are not those of its writer: look at all three, and fetch them again. Where the bytes end
    /// too early and are right so far, the first `value` values are there, in the first `place` bits: a
    /// [`Reader`](crate::Reader) gives them, and [`MacaqueV::rescue`](crate::MacaqueV::rescue) the writer that goes
    /// on behind them.
    EndsEarly {
        /// The value whose code is not all there.
        value: usize,
        /// The bit at which its code begins, or would.
        place: usize,
    },
    /// 6: the stream keeps a window before any was set, which none that is written does: the bytes or
    /// the opening are not those of its writer, or the count, in a rescue the limit, is too high. Look at
    /// all three, and fetch them again.
    NoWindow {
        /// The value whose code keeps the window.
        value: usize,
        /// The bit at which its code begins.
        place: usize,
    },
    /// 7: the stream sets a window of no bits, or of more than 32 with its leading zeros, which none
    /// that is written does: the bytes or the opening are not those of its writer. Fetch them again.
    WindowNotAllowed {
        /// The value whose code sets the window.
        value: usize,
        /// The bit at which its code begins.
        place: usize,
    },
    /// 8: the stream goes on behind its last value, with a set padding bit or a further byte. The count
    /// is too low, bytes of another stream follow, or the bytes or the opening are not its writer's. Where bytes
    /// follow that are none of its own, as of a whole buffer, hand in those that are in use.
    Leftover {
        /// The count: how many values were read.
        value: usize,
        /// The first set padding bit or, where none is set, the first bit of the first further byte.
        place: usize,
    },
    /// 9: the parameter bytes' length or flag, or a residual count byte of 0, is not allowed: the bytes
    /// are not those of a segment of this model. Fetch them again.
    FormNotAllowed,
    /// 10: the timestamps do not increase strictly, a time lies outside -2^52 to 2^52, a line's end is not
    /// behind its start, or the residuals leave one timestamp to a Swing model. Sort them and drop
    /// repeats, count time in a coarser unit, or hand in all timestamps of the segment.
    TimesNotAllowed,
    /// 11: there is no model. Nothing was fitted yet, or a line is to be drawn whose ends differ while
    /// at least one is not finite: such a segment can be stored, but not read.
    NoModel,
    /// 12: counts or lengths do not go together: `k` is above the count, more is used than the buffer
    /// holds, timestamps and values are not equally many, the residuals leave no timestamp to the
    /// model, a range begins behind its end or ends behind the count, or a place table ends inside an
    /// entry. Hand in what belongs together.
    CountsDisagree,
    /// 13: the place table does not match. It has not as many entries as the count asks for, one for each 64
    /// values and for the rest; or, in a check, an entry is not the stream's own; or, in a range, the entry to
    /// start from is missing, has its place behind the stream's bytes, or holds no value of 32 bits or no window. Call
    /// the check: where it finds the stream broken, see to that first; where it says 13 again, it is the table, the count,
    /// or a stream that was changed and still reads. Compare all three with where they were written. The whole stream
    /// reads without a table.
    TableDoesNotMatch,
}

/// A refusal in three numbers, as it crosses the C face. Number 0 is that of an accepted call.
#[derive(Clone, Copy, Debug, Default, PartialEq, Eq, Hash)]
#[repr(C)]
pub struct Fault {
    /// The refusal's number, 1 to 13, or 0.
    pub number: u32,
    /// Of 5 to 8 the value that was being read, counted from 0, of 8 the count; else 0.
    pub value: u32,
    /// Of 5 to 8 the bit at which its code begins, of 8 that of the first leftover; else 0.
    pub place: usize,
}

impl Fault {
    /// What an accepted call answers.
    pub const ACCEPTED: Fault = Fault {
        number: 0,
        value: 0,
        place: 0,
    };
}

impl From<u32> for Fault {
    /// A number with neither value nor place.
    fn from(number: u32) -> Fault {
        Fault {
            number,
            ..Fault::ACCEPTED
        }
    }
}

/// What was wrong, in the order of the numbers.
const CAUSES: [&str; 13] = [
    "the error bound is not allowed: an absolute one must be finite and above 0, a relative one above 0 and at most 100",
    "the state is not allowed: its fields do not go together, or not with the buffer that it was lent",
    "a number is above its limit, 65,536 values, 255 residuals, model 1 or a file's mode 1, or the metadata size M is above 65,535 or below 1",
    "the lent output is too short for the answer",
    "the stream ends before its last value",
    "the stream keeps a window before any was set",
    "the stream sets a window of no bits, or of more than 32 with its leading zeros",
    "the stream goes on after its last value: a set padding bit or a further byte",
    "the parameter bytes' length or flag, or the residual count byte, is not allowed",
    "the timestamps are not strictly increasing, one is outside -2^52 to 2^52, a line does not end behind its start, or a Swing segment owns one timestamp only",
    "there is no model: the state is of length 0, or the line has ends that differ, at least one not finite",
    "the counts do not match: k above the count, more used than the buffer holds, lists of unequal lengths, no value left for the model, a range that begins behind its end or ends behind the count, or a place table that ends inside an entry",
    "the place table does not match: not as many entries as the count asks for, one that is not the stream's, or none that a range can start from; check it against the stream",
];

impl Refusal {
    /// The refusal's number, 1 to 13.
    ///
    /// ```
    /// assert_eq!(modelardb_rattle::Refusal::NoModel.number(), 11);
    /// ```
    pub fn number(self) -> u32 {
        match self {
            Refusal::BoundNotAllowed => 1,
            Refusal::StateNotAllowed => 2,
            Refusal::OverLimit => 3,
            Refusal::OutputTooShort => 4,
            Refusal::EndsEarly { .. } => 5,
            Refusal::NoWindow { .. } => 6,
            Refusal::WindowNotAllowed { .. } => 7,
            Refusal::Leftover { .. } => 8,
            Refusal::FormNotAllowed => 9,
            Refusal::TimesNotAllowed => 10,
            Refusal::NoModel => 11,
            Refusal::CountsDisagree => 12,
            Refusal::TableDoesNotMatch => 13,
        }
    }

    /// The refusal's number, and with 5 to 8 the value and the place; with the others both are 0.
    ///
    /// ```
    /// use modelardb_rattle::{Fault, Refusal};
    ///
    /// let leftover = Refusal::Leftover { value: 3, place: 56 };
    /// assert_eq!(leftover.fault(), Fault { number: 8, value: 3, place: 56 });
    /// assert_eq!(Refusal::NoModel.fault(), Fault { number: 11, value: 0, place: 0 });
    /// ```
    pub fn fault(self) -> Fault {
        let (value, place) = self.at().unwrap_or_default();
        Fault {
            number: self.number(),
            // A stream has 65,536 values at most.
            value: u32::try_from(value).unwrap_or(u32::MAX),
            place,
        }
    }

    /// The refusal that three numbers stand for, if the first is one's. Value and place are looked at
    /// with 5 to 8 alone.
    ///
    /// ```
    /// use modelardb_rattle::{Fault, Refusal};
    ///
    /// let told = Fault { number: 5, value: 2, place: 34 };
    /// assert_eq!(Refusal::from_fault(told), Some(Refusal::EndsEarly { value: 2, place: 34 }));
    /// assert_eq!(Refusal::from_fault(Fault::ACCEPTED), None);
    /// ```
    pub fn from_fault(fault: Fault) -> Option<Refusal> {
        let (value, place) = (fault.value as usize, fault.place);
        Some(match fault.number {
            1 => Refusal::BoundNotAllowed,
            2 => Refusal::StateNotAllowed,
            3 => Refusal::OverLimit,
            4 => Refusal::OutputTooShort,
            5 => Refusal::EndsEarly { value, place },
            6 => Refusal::NoWindow { value, place },
            7 => Refusal::WindowNotAllowed { value, place },
            8 => Refusal::Leftover { value, place },
            9 => Refusal::FormNotAllowed,
            10 => Refusal::TimesNotAllowed,
            11 => Refusal::NoModel,
            12 => Refusal::CountsDisagree,
            13 => Refusal::TableDoesNotMatch,
            _ => return None,
        })
    }

    /// The value and the place of the four that tell them.
    fn at(self) -> Option<(usize, usize)> {
        match self {
            Refusal::EndsEarly { value, place }
            | Refusal::NoWindow { value, place }
            | Refusal::WindowNotAllowed { value, place }
            | Refusal::Leftover { value, place } => Some((value, place)),
            _ => None,
        }
    }

    /// What a call of the library answered.
    pub(crate) fn judge(fault: Fault) -> std::result::Result<(), Refusal> {
        match fault.number {
            0 => Ok(()),
            _ => Err(Refusal::from_fault(fault).expect("the number of a refusal")),
        }
    }
}

impl Display for Refusal {
    fn fmt(&self, f: &mut Formatter) -> Result {
        let number = self.number();
        write!(f, "refused {number}")?;
        match (self, self.at()) {
            (Refusal::Leftover { .. }, Some((count, place))) => {
                write!(f, " behind {count} values, bit {place}")?;
            }
            (_, Some((value, place))) => write!(f, " at value {value}, bit {place}")?,
            (_, None) => {}
        }
        write!(f, ": {}", CAUSES[number as usize - 1])
    }
}

impl Error for Refusal {}

#[cfg(test)]
mod tests {
    use super::*;

    /// One of each number; value and place are left out where a refusal has none.
    #[test]
    fn each_refusal_stands_for_its_three_numbers() {
        for number in 1..=13 {
            let told = Fault {
                number,
                value: 65_536,
                place: 2_949_120,
            };
            let refusal = Refusal::from_fault(told).expect("one of thirteen");
            assert_eq!(refusal.number(), number);
            let carried = match number {
                5..=8 => told,
                _ => number.into(),
            };
            assert_eq!(refusal.fault(), carried);
            assert_eq!(Refusal::from_fault(carried), Some(refusal));
        }
        assert_eq!(Refusal::from_fault(14.into()), None);
    }

    #[test]
    fn a_refusal_is_told_with_its_value_and_place() {
        let (value, place) = (2, 40);
        for (refusal, begin) in [
            (
                Refusal::EndsEarly { value, place },
                "refused 5 at value 2, bit 40: the stream ends",
            ),
            (
                Refusal::NoWindow { value, place },
                "refused 6 at value 2, bit 40: the stream keeps",
            ),
            (
                Refusal::WindowNotAllowed { value, place },
                "refused 7 at value 2, bit 40: the stream sets",
            ),
            (
                Refusal::Leftover { value, place },
                "refused 8 behind 2 values, bit 40: the stream goes on",
            ),
            (Refusal::OutputTooShort, "refused 4: the lent output"),
            (Refusal::CountsDisagree, "refused 12: the counts"),
            (Refusal::TableDoesNotMatch, "refused 13: the place table"),
        ] {
            assert!(refusal.to_string().starts_with(begin), "{refusal}");
        }
    }
}
