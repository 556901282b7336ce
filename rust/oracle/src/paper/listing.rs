//! The listing: a with-first stream's rows as text.

use super::macaque_v::{Kind, Opening, Row, read_all};
use super::{Fault, Read, judge_count, refusal, refuse_if};

/// "At most 32,768 bytes in all."
const MOST_INPUT: usize = 32_768;

/// What the program writes for its input. "The listing's refusal line becomes `refused`, number, value,
/// place, with single spaces (`refused 7 2 40`); other numbers, and an input under 4 bytes, show 0 and
/// 0."
pub fn list(input: &[u8]) -> String {
    match rows(input) {
        Ok(rows) => table(&rows),
        Err(Fault {
            number,
            value,
            place,
        }) => format!("refused {number} {value} {place}\n"),
    }
}

/// "A with-first stream's count (4 bytes, little-endian) and bytes ... More is refused with 3, fewer
/// than 4 with 5."
fn rows(input: &[u8]) -> Read<Vec<Row>> {
    refuse_if(input.len() > MOST_INPUT, refusal::LIMIT)?;
    let (head, bytes) = input.split_at_checked(4).ok_or(refusal::ENDS_EARLY)?;
    let count = u32::from_le_bytes(head.try_into().expect("four bytes")) as usize;
    judge_count(count)?;
    read_all(bytes, count, Opening::WithFirst)
}

/// A header, a line for each value, and the sum of the bits column.
fn table(rows: &[Row]) -> String {
    let mut text = String::from("no kind lead bits value\n");
    for (no, row) in rows.iter().enumerate() {
        let (kind, lead) = match row.kind {
            Kind::Raw => ("raw", "-".to_string()),
            Kind::Same => ("same", "-".to_string()),
            Kind::New => ("new", row.window.leading.to_string()),
            Kind::Keep => ("keep", row.window.leading.to_string()),
        };
        text += &format!("{no} {kind} {lead} {} {:08X}\n", row.bits, row.value);
    }
    let total: usize = rows.iter().map(|row| row.bits).sum();
    text + &format!("total {total}\n")
}
