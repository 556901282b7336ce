//! The rules that the program goes by. Document 02 changes sentences of 01, and the Rust's text answers as 01 had them
//! first. So both stand here, and a call goes by those that are in force in its thread.

use std::cell::Cell;

#[derive(Clone, Copy, Debug, PartialEq)]
pub enum Rules {
    /// Document 01 as it first was: the published text and `filled` follow it.
    First,
    /// Document 01 with the requests of 02 that have landed: the library follows it.
    Today,
}

thread_local! {
    static IN_FORCE: Cell<Rules> = const { Cell::new(Rules::Today) };
}

/// The rules in force: today's, but inside of [`as_first`].
pub fn in_force() -> Rules {
    IN_FORCE.get()
}

/// Asks by the rules as they first were. Those before are in force again afterwards, also behind a panic.
pub fn as_first<A>(ask: impl FnOnce() -> A) -> A {
    let _before = Before(IN_FORCE.replace(Rules::First));
    ask()
}

/// The rules that come back into force where this is dropped.
struct Before(Rules);

impl Drop for Before {
    fn drop(&mut self) {
        IN_FORCE.set(self.0);
    }
}
