//! Streams that no writer makes, and that are accepted: of any codes. Cut at a byte and rescued with their count they are
//! what reopening the whole stream gives, at the last value that arrived.

use super::{arrived, every_way};
use crate::context::Context;
use crate::inputs::Inputs;
use crate::lent::STALE_WORD;
use crate::parts::library_stream::both::{self as plain, At};
use modelardb_rattle::ffi::STATE_WORDS;
use oracle::paper::MOST_VALUES;
use oracle::paper::bits::{field, put};
use oracle::paper::macaque_v::Opening;
use oracle::paper::rescue::Rescue;

pub fn others(context: &mut Context) {
    for _ in 0..context.rounds(250) {
        let count = context.inputs.below(20) as usize;
        of_any_codes(context, count);
    }
    of_any_codes(context, 130);
}

/// Cut at every byte, with the rest of it behind. Where a value is missing, the most values as a limit do the same.
fn of_any_codes(context: &mut Context, count: usize) {
    let (error_bound, opening) = (context.inputs.bound(), context.inputs.opening());
    let (bytes, places) = codes(&mut context.inputs, count, opening);
    for used in 0..=bytes.len() {
        let k = places.partition_point(|&place| place <= 8 * used);
        let missing = (k < count).then_some(MOST_VALUES);
        for limit in [Some(count), missing].into_iter().flatten() {
            let rescue = Rescue {
                used,
                limit,
                opening,
                error_bound,
            };
            let (fault, left) = every_way(context, &bytes, &rescue);
            let whole = At {
                used: bytes.len(),
                count,
                k,
                opening: arrived(&rescue).opening,
                bound: arrived(&rescue).bound,
            };
            let row = [STALE_WORD; STATE_WORDS + 1];
            let reopened = plain::reopened(context, &bytes, whole, &row);
            let rescued = (fault, left.row, left.buffer);
            context.same("of any codes", reopened, rescued, || {
                format!("{rescue:X?} of {count} in {bytes:02X?}")
            });
        }
    }
}

/// The bytes of so many values of any codes, and the place behind each. A window may be set where the last one would do,
/// and its bits may all be 0.
fn codes(inputs: &mut Inputs, count: usize, opening: Opening) -> (Vec<u8>, Vec<usize>) {
    let (mut bits, mut places, mut window) = (vec![], vec![], None);
    for number in 0..count {
        if number == 0 && opening == Opening::WithFirst {
            bits.extend(field(inputs.value(), 32));
        } else {
            bits.extend(code(inputs, &mut window));
        }
        places.push(bits.len());
    }
    let mut bytes = vec![0; bits.len().div_ceil(8)];
    for (place, &bit) in bits.iter().enumerate() {
        put(&mut bytes, place, bit);
    }
    (bytes, places)
}

/// The bits of any code. The window is how many of them a keep code has behind its first.
fn code(inputs: &mut Inputs, window: &mut Option<u32>) -> Vec<bool> {
    let value = inputs.value();
    match (inputs.below(3), *window) {
        (0, _) => field(2, 2),
        (1, Some(meaningful)) => [field(0, 1), field(value, meaningful)].concat(),
        _ => {
            let leading = inputs.below(32) as u32;
            let meaningful = 1 + inputs.below(u64::from(32 - leading)) as u32;
            *window = Some(meaningful);
            let counts = [field(3, 2), field(leading, 5), field(meaningful, 6)];
            [counts.concat(), field(value, meaningful)].concat()
        }
    }
}
