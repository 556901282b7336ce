//! Two uploads compared: the program, the script that opens its files, and the safe call, beside the
//! paper's program.

mod files;
mod program;
mod safe;

use crate::context::Context;
use files::{File, allowed, drawn, limits, longest, refused, whole};
use program::Program;

pub fn compare(context: &mut Context) {
    let program = Program::new();
    let every = [allowed(), refused()].concat();
    for left in &every {
        for right in &every {
            both(context, &program, left, right);
        }
    }
    for [left, right] in limits() {
        both(context, &program, &left, &right);
        both(context, &program, &right, &left);
    }
    for file in &every {
        program.scripted(context, file, &whole());
        program.scripted(context, &whole(), file);
    }
    program.unread(context);
    flipped(context, &program);
    for _ in 0..context.rounds(60) {
        random(context, &program);
    }
    for _ in 0..context.rounds(3000) {
        let [left, right] = drawn(&mut context.inputs);
        safe::files(context, &left, &right);
    }
    for [left, right] in longest(&mut context.inputs) {
        safe::streams(context, &left, &right);
    }
}

/// The program and the safe call on two files.
fn both(context: &mut Context, program: &Program, left: &File, right: &File) {
    program.both(context, left, right);
    safe::files(context, left, right);
}

/// A small file with each of its bits flipped and cut to each length, on either side.
fn flipped(context: &mut Context, program: &Program) {
    let whole = whole();
    for place in 0..8 * whole.bytes.len() {
        let mut turned = File::new("a bit flipped", whole.bytes.clone());
        turned.bytes[place / 8] ^= 128 >> (place % 8);
        both(context, program, &turned, &whole);
        both(context, program, &whole, &turned);
    }
    for length in 0..whole.bytes.len() {
        let cut = File::new("cut short", whole.bytes[..length].to_vec());
        both(context, program, &cut, &whole);
        both(context, program, &whole, &cut);
    }
}

/// Two files that were drawn, whole, in each other's place, and with one of them damaged.
fn random(context: &mut Context, program: &Program) {
    let [mut left, mut right] = drawn(&mut context.inputs);
    both(context, program, &left, &right);
    both(context, program, &right, &left);
    let damaged = if context.inputs.flip() {
        &mut left
    } else {
        &mut right
    };
    context.inputs.damage(&mut damaged.bytes);
    both(context, program, &left, &right);
}
