//! Uploads that were cut: short ones at every byte, long ones at some.

use super::upload::Upload;
use crate::context::Context;
use crate::inputs::{ONE, SPECIAL};
use crate::parts::library_stream::repeats;
use crate::parts::macaque_v::BOUNDS;
use oracle::paper::MOST_VALUES;
use oracle::paper::macaque_v::Opening;
use oracle::paper::models::ErrorBound::Lossless;
use oracle::paper::size::largest;

/// How many repeats stand in a row: none, about as many as fill a byte, and about as many as the library reads at once.
const RUNS: [usize; 9] = [0, 1, 3, 4, 5, 27, 28, 29, 57];

pub fn cuts(context: &mut Context) {
    for bound in BOUNDS {
        for opening in [Opening::WithFirst, Opening::On(ONE)] {
            let values = context.inputs.values(140);
            let upload = Upload::new(context, bound, opening, &values);
            at_every_byte(context, &upload);
        }
    }
    for _ in 0..context.rounds(300) {
        let count = context.inputs.below(24) as usize;
        let upload = Upload::any(context, count);
        at_every_byte(context, &upload);
    }
    of_one_kind(context);
    for count in [1_023, 1_024, 1_025, 2_100] {
        let upload = Upload::any(context, count);
        at_some_bytes(context, &upload, 12);
    }
    for _ in 0..context.rounds(3) {
        let upload = Upload::any(context, MOST_VALUES);
        at_some_bytes(context, &upload, 2);
    }
}

/// Values of one kind: repeats between others, odd NaNs and the ends of ranges, and those that take the most bits.
fn of_one_kind(context: &mut Context) {
    for run in RUNS {
        for (opening, values) in repeats::lists(run) {
            let upload = Upload::new(context, Lossless, opening, &values);
            at_some_bytes(context, &upload, 2);
        }
    }
    for opening in [Opening::WithFirst, Opening::On(0x7FC1_2345)] {
        let specials: Vec<u32> = (0..40).map(|_| context.inputs.pick(&SPECIAL)).collect();
        for values in [specials, largest(40, opening)] {
            let upload = Upload::new(context, Lossless, opening, &values);
            at_every_byte(context, &upload);
        }
    }
}

fn at_every_byte(context: &mut Context, upload: &Upload) {
    for used in 0..=upload.size() {
        upload.cut(context, used);
    }
}

/// At so many bytes anywhere, without its last byte, and whole.
fn at_some_bytes(context: &mut Context, upload: &Upload, some: usize) {
    let size = upload.size();
    let anywhere = (0..some).map(|_| context.inputs.below(size as u64 + 1) as usize);
    let mut cuts: Vec<usize> = anywhere.collect();
    cuts.extend([size.saturating_sub(1), size]);
    for used in cuts {
        upload.cut(context, used);
    }
}
