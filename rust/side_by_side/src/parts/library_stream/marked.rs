//! Document 01's marked cases a to l through the compiled calls, held against the paper's own words.

use super::both;
use crate::context::Context;
use crate::inputs::{ONE, TWO};
use crate::lent::{STALE, STALE_VALUE};
use modelardb_rattle::Fault;
use modelardb_rattle::ffi::{STATE_WORDS, Words};

const FIRST: Words = (0, 0);
const ON_ONE: Words = (1, ONE);

const CASE_A: &[u8] = &[0x3F, 0x80, 0x00, 0x00, 0xB0, 0x91, 0xFE];
const CASE_B: &[u8] = &[0x3F, 0x80, 0x00, 0x00, 0xB0, 0x91, 0xFE, 0xFF];

/// A case that is read: its letter, bytes and count, and the values or the refusal.
type Case = (char, &'static [u8], usize, Result<&'static [u32], Fault>);

const CASES: [Case; 10] = [
    ('c', &[0x80], 1, Ok(&[ONE])),
    ('d', &[0xA0], 2, Ok(&[ONE, ONE])),
    ('e', &[0xFE, 0x0C], 1, Ok(&[0x3F80_0001])),
    ('f', &[0x00], 1, refused(6, 0, 0)),
    ('g', &[0x80], 2, refused(6, 1, 2)),
    ('h', &[0xFE, 0x10], 1, refused(7, 0, 0)),
    ('i', &[0xC0, 0x00], 1, refused(7, 0, 0)),
    ('j', &[0xC0], 1, refused(5, 0, 0)),
    ('k', &[0xA0], 1, refused(8, 1, 2)),
    ('l', &[0x80, 0x00], 1, refused(8, 1, 8)),
];

/// Refused at a value and a place.
const fn refused(number: u32, value: u32, place: usize) -> Result<&'static [u32], Fault> {
    Err(Fault {
        number,
        value,
        place,
    })
}

pub fn marked(context: &mut Context) {
    let values = [ONE, ONE, TWO, ONE];
    for (letter, bytes, count) in [('a', CASE_A, 3), ('b', CASE_B, 4)] {
        written(context, letter, &values[..count], bytes);
        read(
            context,
            (letter, bytes, count, Ok(&[ONE, ONE, TWO, ONE][..count])),
            FIRST,
        );
    }
    // b: "then 1.0", behind case a.
    let (_, row) = both::opened(context, (0, 0), FIRST, &[0; STATE_WORDS]);
    let (_, row, buffer) = both::written(context, &row, &values[..3], &[STALE; 8]);
    let (fault, _, buffer) = both::written(context, &row, &values[3..], &buffer);
    let input = || "marked case b behind a".to_string();
    let accepted = (Fault::ACCEPTED, CASE_B);
    context.same("library", accepted, (fault, &buffer[..]), input);
    for case in CASES {
        read(context, case, ON_ONE);
    }
}

fn written(context: &mut Context, letter: char, values: &[u32], bytes: &[u8]) {
    let (_, row) = both::opened(context, (0, 0), FIRST, &[0; STATE_WORDS]);
    let (fault, row, buffer) = both::written(context, &row, values, &[STALE; 16]);
    let used = row[8].div_ceil(8) as usize;
    let input = || format!("marked case {letter} written");
    let accepted = (Fault::ACCEPTED, bytes);
    context.same("library", accepted, (fault, &buffer[..used]), input);
}

/// The case is drawn, summed and reopened at its end as the paper says.
fn read(context: &mut Context, (letter, bytes, count, answer): Case, opening: Words) {
    let (fault, values) = both::read(
        context,
        both::GRID,
        (bytes, count, opening),
        &vec![STALE_VALUE; count],
    );
    let drawn = if fault == Fault::ACCEPTED {
        Ok(&values[..])
    } else {
        Err(fault)
    };
    let input = || format!("marked case {letter}");
    context.same("library", answer, drawn, input);
    let (sum, _) = both::read(context, both::SUM, (bytes, count, opening), &[STALE_VALUE]);
    let at = both::At {
        used: bytes.len(),
        count,
        k: count,
        opening,
        bound: (0, 0),
    };
    let (reopened, ..) = both::reopened(context, bytes, at, &[0; STATE_WORDS]);
    let refusal = answer.err().unwrap_or(Fault::ACCEPTED);
    context.same("library", (refusal, refusal), (sum, reopened), input);
}
