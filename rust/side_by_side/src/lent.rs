//! Lent memory between guards: what a call leaves in it, and whether it wrote beside it.

use crate::context::Context;
use modelardb_rattle::Fault;
use std::fmt::Debug;
use std::sync::LazyLock;

/// What stands guard beside bytes, values, words, times and counts.
pub const BYTE_GUARD: u8 = 0xA5;
pub const VALUE_GUARD: u32 = 0xA5A5_5A5A;
pub const WORD_GUARD: u64 = 0xA5A5_5A5A_A5A5_5A5A;
pub const TIME_GUARD: i64 = 0x5A5A_A5A5_5A5A_A5A5;
pub const COUNT_GUARD: usize = 0xA5A5_5A5A;

/// What lent bytes, values, words and counts hold before a call.
pub const STALE: u8 = 0x5A;
pub const STALE_VALUE: u32 = 0x5A5A;
pub const STALE_WORD: u64 = 0x5A5A;
pub const STALE_COUNT: usize = 0x5A5A;

/// How many places stand guard on each side: a stray word of eight bytes or two is seen. With `GUARDS=0` in the
/// environment none do, and a slice is the whole of what is allocated for it: a memory checker such as valgrind
/// then sees each stray byte, read or written.
static GUARDS: LazyLock<usize> = LazyLock::new(|| match std::env::var("GUARDS").as_deref() {
    Ok("0") => 0,
    _ => 16,
});

/// A slice to lend, with guards before and behind it.
pub struct Lent<T> {
    places: Vec<T>,
    guard: T,
}

impl<T: Copy + PartialEq> Lent<T> {
    pub fn new(content: &[T], guard: T) -> Self {
        let length = content.len() + 2 * *GUARDS;
        let mut places = Vec::with_capacity(length);
        places.resize(*GUARDS, guard);
        places.extend_from_slice(content);
        places.resize(length, guard);
        Self { places, guard }
    }

    pub fn lend(&mut self) -> &mut [T] {
        let end = self.places.len() - *GUARDS;
        &mut self.places[*GUARDS..end]
    }

    /// What the slice holds, or `None` where a guard was overwritten.
    pub fn content(mut self) -> Option<Vec<T>> {
        let behind = self.places.split_off(self.places.len() - *GUARDS);
        let content = self.places.split_off(*GUARDS);
        let mut guards = self.places.iter().chain(&behind);
        guards.all(|&place| place == self.guard).then_some(content)
    }
}

/// What a call leaves: what it answers, and the row or output that it was lent.
pub type Left<T> = (Fault, Vec<T>);

/// A call that is lent `memory`, by the paper and by the library. A refusal leaves the memory alone.
pub fn compared<T: Copy + PartialEq + Debug>(
    context: &mut Context,
    (memory, guard): (&[T], T),
    paper: impl FnOnce(&mut [T]) -> Fault,
    library: impl FnOnce(&mut [T]) -> Fault,
    input: impl FnOnce() -> String,
) -> Left<T> {
    let mut expected = memory.to_vec();
    let fault = paper(&mut expected);
    let mut lent = Lent::new(memory, guard);
    let ours = library(lent.lend());
    let left = lent.content();
    let is_as_refused = ours == Fault::ACCEPTED || left.as_deref() == Some(memory);
    context.same(
        "library",
        (fault, Some(&expected[..]), true),
        (ours, left.as_deref(), is_as_refused),
        || format!("{} into {memory:X?}", input()),
    );
    (fault, expected)
}

/// Lends what is only to be read, and sees that it was left alone.
pub fn to_read<T: Copy + PartialEq>(
    (content, guard): (&[T], T),
    is_kept: &mut bool,
    call: impl FnOnce(&[T]) -> Fault,
) -> Fault {
    let mut lent = Lent::new(content, guard);
    let fault = call(lent.lend());
    *is_kept = lent.content().as_deref() == Some(content);
    fault
}
