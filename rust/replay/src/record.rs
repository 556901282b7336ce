//! A record: a call, the numbers and the memory that it is handed.

use crate::calls::Told;
use std::fmt::Write;

/// What each list holds is said in crates/replay/src/calls.rt: `x` and `w` the numbers of 32 and of 64 bits in
/// the order of the parameters, `t` timestamps, `p` and `q` bytes, `v` values, `s` a row that is
/// only read and `r` one that is written, or a number, `u` how many entries of a place table are in use and
/// then its words.
#[derive(Clone, Default)]
pub struct Record {
    pub call: usize,
    pub x: Vec<u32>,
    pub w: Vec<u64>,
    pub t: Vec<i64>,
    pub p: Vec<u8>,
    pub q: Vec<u8>,
    pub v: Vec<u32>,
    pub r: Vec<u64>,
    pub u: Vec<u64>,
    pub s: Vec<u64>,
}

impl Record {
    /// Its line. Behind the colon stand the answer, without a value and a place that are both 0, and those
    /// lists that are not left as they were.
    pub fn line(&self, (told, left): &(Told, Self)) -> String {
        let mut line = format!("{:x}", self.call);
        let times: Vec<u64> = self.t.iter().map(|&time| time as u64).collect();
        for (name, words) in [('x', wide(&self.x)), ('w', self.w.clone()), ('t', times)] {
            put(&mut line, name, &words);
        }
        let (before, after) = (self.lent(), left.lent());
        for (name, words) in &before {
            put(&mut line, *name, words);
        }
        put(&mut line, 's', &self.s);
        let [number, value, place] = told;
        _ = write!(line, " : {number:x}");
        if (*value, *place) != (0, 0) {
            _ = write!(line, " {value:x} {place:x}");
        }
        for ((name, words), (_, before)) in after.iter().zip(&before) {
            if words != before {
                put(&mut line, *name, words);
            }
        }
        line + "\n"
    }

    /// The memory that a call may change.
    fn lent(&self) -> [(char, Vec<u64>); 5] {
        [
            ('p', wide(&self.p)),
            ('q', wide(&self.q)),
            ('v', wide(&self.v)),
            ('r', self.r.clone()),
            ('u', self.u.clone()),
        ]
    }
}

fn wide<T: Copy + Into<u64>>(words: &[T]) -> Vec<u64> {
    words.iter().map(|&word| word.into()).collect()
}

/// A list by its name, where it has words; a word that is repeated stands once, behind its count.
fn put(line: &mut String, name: char, words: &[u64]) {
    if words.is_empty() {
        return;
    }
    _ = write!(line, " {name}");
    for run in words.chunk_by(|a, b| a == b) {
        _ = match run.len() {
            1 => write!(line, " {:x}", run[0]),
            count => write!(line, " {count:x}*{:x}", run[0]),
        };
    }
}
