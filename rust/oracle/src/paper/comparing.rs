//! Two uploads compared, as text: document 02, "Compare two uploads".

use super::macaque_v::{Opening, read_all};
use super::{Fault, MOST_VALUES, Read, refusal, refuse_if};

/// "Each stream may be up to 24 KiB."
pub const MOST_BYTES: usize = 24 * 1024;

/// "A file of a mode byte (0 with first, 1 without), opening value and count (4 bytes each,
/// little-endian) and bytes".
pub const HEAD: usize = 9;

/// What the program writes for its two files. "Refusals: the left stream's, else the right's, as `left
/// refused 7 2 40`".
pub fn compare(left: &[u8], right: &[u8]) -> String {
    match (values(left), values(right)) {
        (Err(fault), _) => refused("left", fault),
        (_, Err(fault)) => refused("right", fault),
        (Ok(left), Ok(right)) => table(&differences(&left, &right)),
    }
}

fn refused(side: &str, fault: Fault) -> String {
    let Fault {
        number,
        value,
        place,
    } = fault;
    format!("{side} refused {number} {value} {place}\n")
}

/// A file's values. "A mode above 1 or a stream over 24 KiB is 3, a file under 9 bytes 5, each with 0 and
/// 0"; a count above 65,536 is 3 too.
pub fn values(file: &[u8]) -> Read<Vec<u32>> {
    refuse_if(file.len() < HEAD, refusal::ENDS_EARLY)?;
    let (head, bytes) = file.split_at(HEAD);
    let word = |at: usize| u32::from_le_bytes([head[at], head[at + 1], head[at + 2], head[at + 3]]);
    let (mode, opening, count) = (head[0], word(1), word(5) as usize);
    refuse_if(
        mode > 1 || count > MOST_VALUES || bytes.len() > MOST_BYTES,
        refusal::LIMIT,
    )?;
    let opening = if mode == 0 {
        Opening::WithFirst
    } else {
        Opening::On(opening)
    };
    let rows = read_all(bytes, count, opening)?;
    Ok(rows.iter().map(|row| row.value).collect())
}

/// An index, and what each side has there.
pub type Difference = (usize, Option<u32>, Option<u32>);

/// "Each index at which the value bits differ, in rising order, each once, with both values; indices
/// present in one stream only follow".
pub fn differences(left: &[u32], right: &[u32]) -> Vec<Difference> {
    (0..left.len().max(right.len()))
        .map(|index| (index, left.get(index).copied(), right.get(index).copied()))
        .filter(|(_, left, right)| left != right)
        .collect()
}

/// "A line reads as `3 3F800000 40000000`, or `4 - 40000000` where the left is shorter. A last line, as
/// `differ 2`, gives the number of differences."
fn table(differences: &[Difference]) -> String {
    let shown = |value: Option<u32>| value.map_or("-".to_string(), |bits| format!("{bits:08X}"));
    let mut text: String = differences
        .iter()
        .map(|&(index, left, right)| format!("{index} {} {}\n", shown(left), shown(right)))
        .collect();
    text += &format!("differ {}\n", differences.len());
    text
}
