//! Every cause of refusal with every other, for the order in which they are judged, and rows and
//! outputs too short, just long enough and longer.

use super::Stream;
use super::both::{self, At};
use crate::context::Context;
use crate::face;
use crate::inputs::ONE;
use crate::lent::{STALE, STALE_VALUE, STALE_WORD};
use crate::order::{BOUNDS, FEW_BOUNDS};
use modelardb_rattle::ffi::STATE_WORDS;
use oracle::paper::MOST_VALUES;
use oracle::paper::macaque_v::Opening;
use oracle::paper::models::ErrorBound;

pub(super) const MODES: [u32; 4] = [0, 1, 2, u32::MAX];

/// A row's lengths: none, a part of its bound, its bound alone, one word less, just enough, and more.
const ROWS: [usize; 6] = [0, 1, 2, STATE_WORDS - 1, STATE_WORDS, STATE_WORDS + 2];

pub fn causes(context: &mut Context) {
    of_new(context);
    for values in [&[][..], &[ONE], &[ONE, ONE, 0x4000_0000, ONE]] {
        for opening in [Opening::WithFirst, Opening::On(ONE)] {
            let stream = Stream::new(context, ErrorBound::Lossless, opening, values);
            for damage in [0x00, 0x01, 0xFF] {
                let mut bytes = stream.bytes.clone();
                if let Some(last) = bytes.last_mut() {
                    *last ^= damage;
                }
                of_reading(context, &stream, &bytes);
                of_reopen(context, &stream, &bytes);
            }
        }
    }
    of_write(context);
}

fn of_new(context: &mut Context) {
    for (bound, _) in BOUNDS {
        for mode in MODES {
            for length in ROWS {
                let row = vec![STALE_WORD; length];
                both::opened(context, bound, (mode, 0xFFC1_2345), &row);
            }
        }
    }
}

/// Counts around the right one and around the limit.
fn counts(count: usize) -> [usize; 7] {
    let less = count.saturating_sub(1);
    [
        count,
        less,
        count + 1,
        MOST_VALUES,
        MOST_VALUES + 1,
        1 << 32,
        usize::MAX,
    ]
}

fn of_reading(context: &mut Context, stream: &Stream, bytes: &[u8]) {
    for mode in MODES {
        let opening = (mode, stream.opening.1);
        for count in counts(stream.count()) {
            for room in [0, stream.count(), stream.count() + 2, MOST_VALUES] {
                let out = vec![STALE_VALUE; room];
                both::read(context, both::GRID, (bytes, count, opening), &out);
                both::read(
                    context,
                    both::SUM,
                    (bytes, count, opening),
                    &out[..room.min(2)],
                );
            }
        }
    }
}

fn of_reopen(context: &mut Context, stream: &Stream, bytes: &[u8]) {
    let buffer = [bytes, &[STALE; 2]].concat();
    let used = bytes.len();
    for (bound, _) in FEW_BOUNDS {
        for mode in MODES {
            for count in counts(stream.count()) {
                for k in [0, stream.count(), stream.count() + 1, usize::MAX] {
                    for used in [used, used + 1, used + 2, used + 3, usize::MAX] {
                        let opening = (mode, stream.opening.1);
                        let at = At {
                            used,
                            count,
                            k,
                            opening,
                            bound,
                        };
                        for length in ROWS {
                            both::reopened(context, &buffer, at, &vec![STALE_WORD; length]);
                        }
                    }
                }
            }
        }
    }
}

/// A bound, a state, a length and a room that are allowed or not, in every mixture.
fn of_write(context: &mut Context) {
    let fresh = face::opening_words(Opening::WithFirst);
    for ((kind, bits), _) in BOUNDS {
        for length in ROWS {
            for (place, written) in [
                (0, 0),
                (0, 1),
                (40, 3),
                (41, MOST_VALUES as u64),
                (48, MOST_VALUES as u64 + 1),
            ] {
                let mut row = vec![STALE_WORD; STATE_WORDS + 2];
                both::opened(context, (0, 0), fresh, &row);
                let words = [
                    kind.into(),
                    bits.into(),
                    0,
                    0,
                    0,
                    255,
                    0,
                    1,
                    place,
                    written,
                    0,
                ];
                row[..STATE_WORDS].copy_from_slice(&words);
                row.truncate(length);
                for values in [&[][..], &[ONE], &[ONE; 9]] {
                    for size in [0, 4, 5, 6, 64] {
                        both::written(context, &row, values, &vec![STALE; size]);
                    }
                }
            }
        }
    }
}
