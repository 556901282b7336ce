//! The rows of docs/DIFFERENCES.md, and what each says.

use oracle::builds::ARE_DEBUG;

const TEXT: &str = include_str!("../../../../../docs/DIFFERENCES.md");

/// What a cell says of a build with debug assertions and checked sums.
const DEBUG_FAULTS: &str = " (a debug build faults)";

/// What is answered by a panic.
pub const FAULTS: &str = "faults";

/// A row: its group, whether `filled` differs from 01 too, its input and the two answers.
pub struct Listed {
    pub group: u32,
    pub has_star: bool,
    pub input: String,
    pub here: String,
    there: String,
}

/// The rows whose first cell is a group's number, with a star or without.
pub fn listed() -> Vec<Listed> {
    TEXT.lines().filter_map(of_line).collect()
}

fn of_line(line: &str) -> Option<Listed> {
    let cells: Vec<&str> = line.split('|').map(str::trim).collect();
    let [_, number, input, here, there, _] = cells[..] else {
        return None;
    };
    let group = number.trim_end_matches(" *").parse().ok()?;
    Some(Listed {
        group,
        has_star: number.ends_with('*'),
        input: plain(input),
        here: answer(here),
        there: answer(there),
    })
}

/// A cell without its marks of code, and with plain minus signs.
pub fn plain(cell: &str) -> String {
    cell.replace('`', "").replace('−', "-")
}

/// The answer of a cell: what stands before its reason.
fn answer(cell: &str) -> String {
    let cell = plain(cell);
    let answer = cell.split_once(": ").map(|(answer, _)| answer);
    answer.unwrap_or(&cell).to_string()
}

impl Listed {
    /// The answer that the published text owes in the build at hand: of `A or B` the given one, if it is
    /// among them.
    pub fn answer<'a>(&'a self, given: &'a str) -> &'a str {
        match self.there.strip_suffix(DEBUG_FAULTS) {
            Some(_) if ARE_DEBUG => FAULTS,
            Some(in_release) => in_release,
            None if self.there.split(" or ").any(|said| said == given) => given,
            None => &self.there,
        }
    }
}
