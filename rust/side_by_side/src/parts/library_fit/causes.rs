//! Every cause of refusal with every other. Each choice below carries the number of the cause that it
//! brings in, or 0; the call must answer the first of them in document 01's order.

mod of_lists;
mod of_states;

use super::both;
use super::kinds::KINDS;
use crate::context::Context;
use crate::lent::STALE_WORD;
use crate::order::{BOUNDS, in_order, rooms};

pub fn causes(context: &mut Context) {
    of_new(context);
    of_states::steps(context);
    of_states::asks(context);
    of_states::builders(context);
    of_lists::choices(context);
    of_lists::lines(context);
}

fn of_new(context: &mut Context) {
    for kind in &KINDS {
        for (bound, cause) in BOUNDS {
            for (length, short) in rooms(kind.words) {
                let row = vec![STALE_WORD; length];
                let (fault, _) = both::new(context, kind, bound, &row);
                in_order(context, &[cause, short], fault, || {
                    format!("{} new {bound:X?} of {length} words", kind.name)
                });
            }
        }
    }
}
