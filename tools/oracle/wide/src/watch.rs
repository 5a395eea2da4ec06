//! What each test of the Rust's solve said, lane by lane. The Rust itself tells only the first x or a panic; it asks
//! `is_nan` once and then `all` in each test, and that is where this notes the answers. Off unless started, and
//! left out where the feature `watch` is off, as in a bench.

use std::cell::RefCell;

/// One test: the lanes whose gamma was NaN, and the lanes that were done (not known if a lane was NaN).
#[derive(Clone, Copy, Debug, PartialEq, Eq)]
pub struct Test {
    pub nan: [bool; 4],
    pub done: [bool; 4],
}

thread_local! {
    static TESTS: RefCell<Option<Vec<Test>>> = const { RefCell::new(None) };
}

/// Starts noting.
pub fn start() {
    TESTS.with_borrow_mut(|tests| *tests = Some(Vec::new()));
}

/// Stops noting and hands over the tests since the start.
pub fn finish() -> Vec<Test> {
    TESTS.take().unwrap_or_default()
}

pub(crate) fn note_nan(nan: [bool; 4]) {
    TESTS.with_borrow_mut(|tests| {
        if let Some(tests) = tests {
            tests.push(Test { nan, done: [false; 4] });
        }
    });
}

pub(crate) fn note_done(done: [bool; 4]) {
    TESTS.with_borrow_mut(|tests| {
        if let Some(last) = tests.as_mut().and_then(|tests| tests.last_mut()) {
            last.done = done;
        }
    });
}
