//! Before anything is timed: the same lists, the sizes that they have, their file, the same test and the same bits of x
//! and y.

use std::panic::{AssertUnwindSafe, catch_unwind};

use ipm::library::Sizes;

use crate::file::written;
use crate::ours::Ours;
use crate::plan::{Lists, listed_counts, work_numbers};
use crate::problem::Problem;
use crate::rust::{self, Solved};

/// Entries of the factor, words of the plan and the accepting test.
#[derive(Clone, Copy)]
pub struct Counts {
    pub stored: usize,
    pub words: usize,
    pub tests: usize,
}

fn bits(numbers: &[f64]) -> Vec<u64> {
    numbers.iter().map(|number| number.to_bits()).collect()
}

/// The Rust's x and y, or none if it panics.
fn rust_solved(problem: &Problem, limit: usize) -> Option<Solved> {
    let problem = problem.with_limit(limit);
    catch_unwind(AssertUnwindSafe(|| rust::solve_with(&mut rust::solver(&problem), &problem))).ok()
}

/// E, S, D and W as the Rust's lists have them, and F by its formula.
fn listed_sizes(problem: &Problem, lists: &Lists) -> Sizes {
    let counts = listed_counts(lists);
    Sizes {
        stored: counts.stored,
        shared: counts.shared,
        products: counts.products,
        words: lists.iter().map(Vec::len).sum(),
        numbers: work_numbers(&problem.matrix, problem.s, counts),
    }
}

/// The two sides beside each other; what differs is the error.
pub fn check(problem: &Problem) -> Result<(Ours, Counts), String> {
    let lists = rust::lists(&problem.matrix);
    let listed = listed_sizes(problem, &lists);
    let mut ours = Ours::new(problem, listed);
    let planned = ours.plan();
    if (planned.question, planned.place as usize) != (0, listed.words) || ours.words() != lists.concat() {
        return Err(format!("the plans differ: {planned:?}"));
    }
    let sizes = ours.sizes();
    if sizes != Ok(listed) {
        return Err(format!("the sizes differ: {sizes:?}, not {listed:?}"));
    }
    let wanted = written(&lists);
    let wrote = ours.write_plan();
    if ours.file() != wanted.bytes || (wrote.question, wrote.place as usize) != (0, wanted.bytes.len()) {
        return Err(format!("the files differ: {wrote:?}"));
    }
    ours.forget_plan();
    let read = ours.read_plan();
    if ours.words() != wanted.words || read != planned {
        return Err(format!("the file is read as another plan: {read:?}"));
    }
    let solved = ours.solve(problem.limit);
    if solved.question != 0 {
        return Err(format!("not accepted: {solved:?}"));
    }
    let tests = solved.place as usize;
    let theirs = rust_solved(problem, tests).ok_or_else(|| format!("the Rust is not done at test {tests}"))?;
    if bits(&theirs.x) != bits(ours.x()) {
        return Err(format!("x differs at test {tests}"));
    }
    if bits(&theirs.y) != bits(ours.y()) {
        return Err(format!("y differs at test {tests}"));
    }
    if tests > 1 && rust_solved(problem, tests - 1).is_some() {
        return Err(format!("the Rust is done before test {tests}"));
    }
    Ok((ours, Counts { stored: listed.stored, words: listed.words, tests }))
}
