//! The examples that the documents work out by hand, through the compiled calls: each answer is a literal
//! of theirs. The marked cases a to l stand in a table of their own.

mod example;
mod fits;
mod segments;
mod streams;

use crate::context::Context;

pub fn examples(context: &mut Context) {
    let tables = [segments::EXAMPLES, streams::EXAMPLES, fits::EXAMPLES];
    for &(says, call, answer) in tables.into_iter().flatten() {
        let answer = answer.map(<[u64]>::to_vec);
        context.same("library", answer, call(), || says.to_string());
    }
}
