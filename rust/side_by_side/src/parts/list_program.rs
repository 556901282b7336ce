//! The listing program, as it was built, on inputs of its own: what it writes is the paper's text.

use crate::context::Context;
use crate::inputs::ONE;
use modelardb_rattle::{ErrorBound, MacaqueV, Opening};
use oracle::paper::MOST_VALUES;
use oracle::paper::listing::list;
use std::io::Write;
use std::process::{Command, Stdio};

/// Where `./check` and `tools/programs` put it.
const PROGRAM: &str = concat!(env!("CARGO_MANIFEST_DIR"), "/../../target/bin/list");

/// "At most 32,768 bytes in all."
const MOST_INPUT: usize = 32_768;

/// Marked case b with its count.
const CASE_B: [u8; 12] = [4, 0, 0, 0, 0x3F, 0x80, 0, 0, 0xB0, 0x91, 0xFE, 0xFF];

pub fn list_program(context: &mut Context) {
    for (name, input) in limits() {
        both(context, &input, name);
    }
    broken(context);
    for _ in 0..context.rounds(300) {
        let count = context.inputs.below(40) as usize;
        let values: Vec<u32> = (0..count).map(|_| context.inputs.value()).collect();
        let mut input = written(&values, context.inputs.flip());
        both(context, &input, "a stream");
        context.inputs.damage(&mut input);
        both(context, &input, "a damaged stream");
    }
}

/// Case b with each bit flipped, its count's too, and cut to each length.
fn broken(context: &mut Context) {
    for place in 0..8 * CASE_B.len() {
        let mut flipped = CASE_B;
        flipped[place / 8] ^= 128 >> (place % 8);
        both(context, &flipped, "case b with a bit flipped");
    }
    for length in 0..CASE_B.len() {
        both(context, &CASE_B[..length], "case b cut short");
    }
}

/// Inputs at the program's limits: their names, and what is handed in.
fn limits() -> Vec<(&'static str, Vec<u8>)> {
    let case_a = [&[3], &CASE_B[1..11]].concat();
    let mut repeats = written(&vec![ONE; MOST_VALUES], false);
    let rows_of_repeats = repeats.clone();
    repeats[..4].copy_from_slice(&(MOST_VALUES as u32 - 1).to_le_bytes());
    vec![
        ("case a", case_a),
        ("case b", CASE_B.to_vec()),
        ("nothing", vec![]),
        ("three bytes", vec![0; 3]),
        ("count 0", vec![0; 4]),
        ("count 0 and a byte", vec![0; 5]),
        ("count 1 and nothing", vec![1, 0, 0, 0]),
        ("count 65,536 and nothing", vec![0, 0, 1, 0]),
        ("count 65,537", vec![1, 0, 1, 0]),
        ("count 4,294,967,295", vec![0xFF; 4]),
        ("32,768 bytes", vec![0; MOST_INPUT]),
        ("32,769 bytes", vec![0; MOST_INPUT + 1]),
        ("far too many bytes", vec![0xAA; 200_000]),
        ("65,536 repeats", rows_of_repeats),
        ("65,535 of 65,536 repeats", repeats),
    ]
}

/// A stream with its count before it.
fn written(values: &[u32], rounded: bool) -> Vec<u8> {
    let bound = if rounded {
        ErrorBound::Absolute(0.5)
    } else {
        ErrorBound::Lossless
    };
    let mut buffer = vec![0; 6 * values.len() + 4];
    let mut writer = MacaqueV::new(bound, Opening::First).expect("an allowed bound");
    writer
        .compress_values_bits(values, &mut buffer)
        .expect("room for 45 bits a value");
    let count = (values.len() as u32).to_le_bytes();
    [&count[..], &buffer[..writer.bytes_used()]].concat()
}

pub fn both(context: &mut Context, input: &[u8], name: &str) {
    let shown = || {
        format!(
            "list on {name}, {} bytes {:02X?}",
            input.len(),
            &input[..input.len().min(64)]
        )
    };
    context.same("list", list(input), printed(input), shown);
}

/// What the program writes.
fn printed(input: &[u8]) -> String {
    let mut child = Command::new(PROGRAM)
        .stdin(Stdio::piped())
        .stdout(Stdio::piped())
        .spawn()
        .unwrap_or_else(|why| {
            panic!("{PROGRAM} does not start ({why}): run `tools/programs` first")
        });
    let mut stdin = child.stdin.take().expect("a pipe");
    // The program reads one byte more than it may take, and then closes its end.
    let fed = input.to_vec();
    let feeding = std::thread::spawn(move || _ = stdin.write_all(&fed));
    let output = child.wait_with_output().expect("the program ends");
    feeding.join().expect("a thread that only writes");
    assert!(output.status.success(), "list ended with {}", output.status);
    String::from_utf8(output.stdout).expect("text")
}
