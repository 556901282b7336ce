//! The safe call on two uploads.

use super::files::File;
use super::program::shown;
use crate::context::Context;
use modelardb_rattle::compare::{Difference, SideRefused, Upload, differences_of_files};
use modelardb_rattle::{Fault, Opening};
use oracle::paper::comparing::{self, HEAD, MOST_BYTES};
use oracle::paper::macaque_v::{self, read_all};
use std::fmt::Write;

/// Its answer as the text that the program prints of the same files. It takes streams of any allowed size,
/// so that files which only the program refuses are left out.
pub fn files(context: &mut Context, left: &File, right: &File) {
    let is_taken = |file: &File| file.bytes.len() <= HEAD + MOST_BYTES;
    if is_taken(left) && is_taken(right) {
        let paper = comparing::compare(&left.bytes, &right.bytes);
        let said = printed(&left.bytes, &right.bytes);
        context.same("safe differences", paper, said, || shown(left, right));
    }
}

fn printed(left: &[u8], right: &[u8]) -> String {
    match compared(left, right) {
        Ok(found) => {
            let mut text = String::new();
            for difference in &found {
                _ = writeln!(text, "{difference}");
            }
            text + &format!("differ {}\n", found.len())
        }
        Err(SideRefused { side, refusal }) => {
            let Fault {
                number,
                value,
                place,
            } = refusal.fault();
            format!("{side} refused {number} {value} {place}\n")
        }
    }
}

fn compared(left: &[u8], right: &[u8]) -> Result<Vec<Difference>, SideRefused> {
    let found = differences_of_files(left, right)?;
    let (least, most) = found.size_hint();
    let found: Vec<Difference> = found.collect();
    assert!(
        least <= found.len() && Some(found.len()) <= most,
        "a size hint holds"
    );
    Ok(found)
}

/// Streams that are longer than the program takes.
pub fn streams(context: &mut Context, left: &File, right: &File) {
    let paper = [left, right].map(|file| {
        let upload = Upload::of_file(&file.bytes).expect("a head");
        let opening = match upload.opening {
            Opening::First => macaque_v::Opening::WithFirst,
            Opening::On(value) => macaque_v::Opening::On(value.to_bits()),
        };
        let rows = read_all(upload.bytes, upload.count, opening).expect("a stream of ours");
        rows.iter().map(|row| row.value).collect::<Vec<u32>>()
    });
    let said = compared(&left.bytes, &right.bytes).expect("two streams of ours");
    let said: Vec<comparing::Difference> = said
        .iter()
        .map(|difference| (difference.index, difference.left, difference.right))
        .collect();
    let paper = comparing::differences(&paper[0], &paper[1]);
    context.same("safe differences", paper, said, || shown(left, right));
}
