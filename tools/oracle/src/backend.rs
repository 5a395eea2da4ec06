//! Those who answer: the reference, the unchanged Rust, and the programs under test.

use crate::file::Filed;
use crate::plan::Measured;
use crate::problem::{Answer, LANES, Matrix, Planned, Problem};

/// What each test of a run said in each lane.
#[derive(Clone, Copy, Debug, PartialEq, Eq)]
pub struct Test {
    pub spoilt: [bool; LANES],
    pub done: [bool; LANES],
}

/// A lane's x, z, y and w at the end, one after another, as bits; none where the rules leave them free.
pub type Numbers = [Option<Vec<u64>>; LANES];

/// What can be seen of a run from inside: its tests and its last numbers.
#[derive(Clone, Debug, Default, PartialEq, Eq)]
pub struct Trace {
    pub tests: Vec<Test>,
    pub numbers: Numbers,
}

impl Trace {
    /// The same tests and numbers, as far as both are known. The Rust does not ask who is done in a test that a
    /// spoilt lane ends.
    pub fn agrees(&self, other: &Trace) -> bool {
        let same_test = |(p, q): (&Test, &Test)| p.spoilt == q.spoilt && (p.spoilt.contains(&true) || p.done == q.done);
        let same_numbers = |l: usize| self.numbers[l] == other.numbers[l] || other.numbers[l].is_none();
        self.tests.len() == other.tests.len()
            && self.tests.iter().zip(&other.tests).all(same_test)
            && (0..LANES).all(same_numbers)
    }
}

/// An answer and, where it can be seen, how it came about.
pub struct Told {
    pub answer: Answer,
    pub trace: Option<Trace>,
}

impl Told {
    pub fn only(answer: Answer) -> Self {
        Told { answer, trace: None }
    }
}

/// One who answers. `Ok(None)` says that this input is not for it; `Err` says what went wrong.
pub trait Backend {
    fn name(&self) -> &'static str;
    fn solve(&mut self, problem: &Problem) -> Result<Option<Told>, String>;
    fn plan(&mut self, matrix: &Matrix) -> Result<Option<Planned>, String>;
    fn sizes(&mut self, matrix: &Matrix, s: usize) -> Result<Option<Measured>, String>;
    fn file(&mut self, matrix: &Matrix) -> Result<Option<Filed>, String>;
}
