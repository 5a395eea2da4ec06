//! The Rust, unchanged. It is given only what passes questions 1 to 10, with the centring and damping that it has.

use std::any::Any;
use std::cell::Cell;
use std::panic::{AssertUnwindSafe, catch_unwind};

use ipm_simd::{PathFollowingDirectSimdSolver, inside};
use wide::watch;

use crate::backend::{Backend, Numbers, Test, Told, Trace};
use crate::file::{Filed, written};
use crate::plan::{Measured, Sizes, listed_counts, work_numbers};
use crate::problem::{Answer, Fractions, Matrix, Planned, Problem, Refusal, all_settled_bits, settled_bits};
use crate::questions::{Room, ask_matrix, ask_solve};
use crate::rust::{Solved, lists, solve_with, solver};

const NAN_PANIC: &str = "NaN encountered during IPM solve!";
const LIMIT_PANIC: &str = "Interior point method failed to converged all SIMD lanes.";

fn numbers(solver: &PathFollowingDirectSimdSolver) -> Numbers {
    let all = inside::numbers(solver).concat();
    std::array::from_fn(|l| Some(all.iter().map(|entry| settled_bits(entry.to_array()[l])).collect()))
}

thread_local! {
    static CAUGHT: Cell<bool> = const { Cell::new(false) };
}

/// Keeps the Rust's panics off the terminal: they are answers here. Others are shown as usual.
pub fn quiet_panics() {
    let usual = std::panic::take_hook();
    std::panic::set_hook(Box::new(move |panic| {
        if !CAUGHT.get() {
            usual(panic);
        }
    }));
}

/// What `act` gives, or what its panic said.
pub fn caught<T>(act: impl FnOnce() -> T) -> Result<T, String> {
    CAUGHT.set(true);
    let end = catch_unwind(AssertUnwindSafe(act)).map_err(panic_text);
    CAUGHT.set(false);
    end
}

fn panic_text(payload: Box<dyn Any + Send>) -> String {
    match payload.downcast::<&str>() {
        Ok(text) => text.to_string(),
        Err(payload) => payload.downcast::<String>().map_or("a panic with no text".into(), |text| *text),
    }
}

/// The Rust's end, whatever it is given: x and y, or what its panic said; and how it came about.
pub fn solve_watched(problem: &Problem) -> (Result<Solved, String>, Trace) {
    let mut solver = match caught(|| solver(problem)) {
        Ok(solver) => solver,
        Err(text) => return (Err(text), Trace::default()),
    };
    watch::start();
    let end = caught(|| solve_with(&mut solver, problem));
    let tests = watch::finish().into_iter().map(|test| Test { spoilt: test.nan, done: test.done });
    (end, Trace { tests: tests.collect(), numbers: numbers(&solver) })
}

/// The Rust only panics. The test and the lanes come from the stand-in's notes of `is_nan`.
fn answer_of(end: Result<Solved, String>, tests: &[Test]) -> Result<Answer, String> {
    let test = tests.len();
    match end {
        Ok(Solved { x, y }) => Ok(Answer::Accepted { test, x: all_settled_bits(&x), y: Some(all_settled_bits(&y)) }),
        Err(text) if text == LIMIT_PANIC => Ok(Answer::Refused(Refusal::at(12, test))),
        Err(text) if text == NAN_PANIC => {
            let spoilt = tests.last().and_then(|test| test.spoilt.iter().position(|&yes| yes));
            let lane = spoilt.ok_or("a NaN panic with no NaN lane")?;
            Ok(Answer::Refused(Refusal { question: 11, place: test, lane }))
        }
        Err(text) => Err(format!("unexpected panic: {text}")),
    }
}

pub struct Unchanged;

impl Backend for Unchanged {
    fn name(&self) -> &'static str {
        "rust"
    }

    fn solve(&mut self, problem: &Problem) -> Result<Option<Told>, String> {
        if problem.fractions != Fractions::default() || ask_solve(problem, Room::ample(problem)).is_err() {
            return Ok(None);
        }
        let (end, trace) = solve_watched(problem);
        let answer = answer_of(end, &trace.tests)?;
        Ok(Some(Told { answer, trace: Some(trace) }))
    }

    fn plan(&mut self, matrix: &Matrix) -> Result<Option<Planned>, String> {
        if ask_matrix(matrix, None).is_err() {
            return Ok(None);
        }
        Ok(Some(Ok(lists(matrix).concat())))
    }

    /// Lengths of the lists, which do not depend on s: they are made once, where all rows are slack. F is of their E.
    fn sizes(&mut self, matrix: &Matrix, s: usize) -> Result<Option<Measured>, String> {
        if ask_matrix(matrix, None).is_err() || s != matrix.m {
            return Ok(None);
        }
        let lists = lists(matrix);
        let counts = listed_counts(&lists);
        let words = lists.iter().map(Vec::len).sum();
        Ok(Some(Ok(Sizes { counts, words, numbers: work_numbers(matrix, s, counts) })))
    }

    /// Its lists as records. It writes no file itself.
    fn file(&mut self, matrix: &Matrix) -> Result<Option<Filed>, String> {
        if ask_matrix(matrix, None).is_err() {
            return Ok(None);
        }
        Ok(Some(Ok(written(&lists(matrix)))))
    }
}
