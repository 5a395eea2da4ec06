//! Times plan and solve, ours and the unchanged Rust, in one run on the same inputs; and sizes, write and read, ours
//! alone.
//!
//! - plan: the Rust checks the lists, makes its thirteen and the transpose; ours is `ipm_plan`.
//! - solve: from the lists to x. The Rust is `from_data` and `solve`; ours is `ipm_solve`, which plans for itself.
//! - test: one test with its step. The Rust is `solve` over the number of tests; ours is `ipm_solve` less `ipm_plan`
//!   over the same number.
//! - again: the Rust's `solve` on a solver made before; ours is `ipm_solve`, which plans every time.
//! - sizes, write, read: ours are `ipm_sizes`, `ipm_write_plan` and `ipm_read_plan`, beside our own `ipm_plan`. The
//!   Rust has no such calls.
//!
//! Both sides accept at the same test: the limit is that test, so nothing panics under the clock. What the Rust is
//! given by value is cloned before the clock starts, and what it made is dropped after it stops.

mod agree;
mod cases;
#[path = "../../../tools/oracle/src/file.rs"]
#[allow(dead_code)]
mod file;
#[path = "../../../tools/oracle/src/generate.rs"]
#[allow(dead_code)]
mod generate;
mod ours;
#[path = "../../../tools/oracle/src/plan.rs"]
#[allow(dead_code)]
mod plan;
#[path = "../../../tools/oracle/src/problem.rs"]
#[allow(dead_code)]
mod problem;
#[path = "../../../tools/oracle/src/random.rs"]
#[allow(dead_code)]
mod random;
#[path = "../../../tools/oracle/src/rust.rs"]
mod rust;
mod timing;

use std::process::ExitCode;
use std::time::Duration;

use ipm_common::SparseNormalCholeskyIndices;
use ipm_simd::PathFollowingDirectSimdSolver;
use nalgebra_sparse::CsrMatrix;

use agree::Counts;
use cases::Case;
use ours::Ours;
use problem::Problem;
use timing::{Piece, Time, sample_in_turn};

const SECONDS: f64 = 2.0;

/// The times of one case.
struct Times {
    rust_plan: Time,
    our_plan: Time,
    rust_setup: Time,
    rust_solve: Time,
    our_solve: Time,
    our_sizes: Time,
    our_write: Time,
    our_read: Time,
}

fn rust_plan(problem: &Problem) -> Piece<'_> {
    let matrix = &problem.matrix;
    Piece::new(
        || (rust::sizes(&matrix.offsets), rust::sizes(&matrix.columns), (0..matrix.entries() as u32).collect()),
        |(offsets, columns, places): (_, _, Vec<u32>)| {
            let a = CsrMatrix::try_from_csr_data(matrix.m, matrix.n, offsets, columns, places).expect("a right matrix");
            (SparseNormalCholeskyIndices::from_matrix(&a), a.transpose(), a)
        },
    )
}

fn rust_setup(problem: &Problem) -> Piece<'_> {
    let matrix = &problem.matrix;
    Piece::new(
        || (rust::sizes(&matrix.offsets), rust::sizes(&matrix.columns), problem.values.clone()),
        |(offsets, columns, values)| {
            PathFollowingDirectSimdSolver::from_data(matrix.m, matrix.n, offsets, columns, values, problem.s)
        },
    )
}

fn timed(problem: &Problem, ours: Ours, budget: Duration) -> Times {
    let sides = rust::sides(problem);
    let mut solver = rust::solver(problem);
    let ours = std::cell::RefCell::new(ours);
    let mut pieces = [
        rust_plan(problem),
        Piece::new(|| (), |()| ours.borrow_mut().plan()),
        rust_setup(problem),
        Piece::new(|| (), |()| solver.solve(&sides.b, &sides.c, &sides.tolerances, sides.limit)[0]),
        Piece::new(|| (), |()| ours.borrow_mut().solve(problem.limit)),
        Piece::new(|| (), |()| ours.borrow().sizes()),
        Piece::new(|| (), |()| ours.borrow_mut().write_plan()),
        Piece::new(|| (), |()| ours.borrow_mut().read_plan()),
    ];
    sample_in_turn(&mut pieces, budget);
    let [rust_plan, our_plan, rust_setup, rust_solve, our_solve, our_sizes, our_write, our_read] =
        pieces.map(Piece::time);
    Times { rust_plan, our_plan, rust_setup, rust_solve, our_solve, our_sizes, our_write, our_read }
}

/// Ours, the Rust's and the ratio, in microseconds.
fn pair(ours: f64, rust: f64) -> String {
    format!("{:>9.1} {:>9.1} {:>5.2} |", 1e6 * ours, 1e6 * rust, ours / rust)
}

/// Ours and its ratio to our own plan, in microseconds.
fn beside_plan(ours: Time, plan: Time) -> String {
    format!("{:>9.2} {:>5.2} |", 1e6 * ours.best, ours.best / plan.best)
}

/// How much slower the middle sample is than the best, for the worst of the pieces.
fn worst_spread(times: &Times) -> f64 {
    let Times { rust_plan, our_plan, rust_setup, rust_solve, our_solve, our_sizes, our_write, our_read } = times;
    let all = [rust_plan, our_plan, rust_setup, rust_solve, our_solve, our_sizes, our_write, our_read];
    all.iter().map(|time| time.spread()).fold(0.0, f64::max)
}

fn row(case: &Case, counts: Counts, times: &Times) -> String {
    let (matrix, tests) = (&case.problem.matrix, counts.tests as f64);
    let sizes = format!(
        "{:>3} {:>4} {:>5} {:>5} {:>8} {:>5}",
        matrix.m,
        matrix.n,
        matrix.entries(),
        counts.stored,
        counts.words,
        counts.tests
    );
    format!(
        "| {:<18} | {sizes} |{}{}{}{}{}{}{} {:>4.0} |",
        case.name,
        pair(times.our_plan.best, times.rust_plan.best),
        pair(times.our_solve.best, times.rust_setup.best + times.rust_solve.best),
        pair((times.our_solve.best - times.our_plan.best) / tests, times.rust_solve.best / tests),
        pair(times.our_solve.best, times.rust_solve.best),
        beside_plan(times.our_sizes, times.our_plan),
        beside_plan(times.our_write, times.our_plan),
        beside_plan(times.our_read, times.our_plan),
        worst_spread(times),
    )
}

fn header() {
    println!("Times in microseconds, the best of many samples: ours, the Rust's, ours over the Rust's.");
    println!("sizes, write, read: ours, and ours over our own plan, since the Rust has no such calls.");
    println!(
        "spread: how much slower the middle sample is than the best, in percent, the worst of the eight pieces timed."
    );
    println!();
    println!("| case | m, n, t, E, W, tests | plan | solve | test | again | sizes | write | read | spread |");
    println!("|---|---|---|---|---|---|---|---|---|---|");
}

fn run(seconds: f64, names: &[String]) -> Result<(), String> {
    header();
    for mut case in cases::all() {
        if !names.is_empty() && !names.iter().any(|name| case.name.contains(name.as_str())) {
            continue;
        }
        let (ours, counts) = agree::check(&case.problem).map_err(|fault| format!("{}: {fault}", case.name))?;
        case.problem.limit = counts.tests;
        let times = timed(&case.problem, ours, Duration::from_secs_f64(seconds));
        println!("{}", row(&case, counts, &times));
    }
    println!();
    println!("Plans, sizes, files, tests and bits of x and y agree in every case.");
    Ok(())
}

fn main() -> ExitCode {
    // The Rust's panics are answers to `agree`, not to be shown.
    std::panic::set_hook(Box::new(|_| ()));
    let words: Vec<String> = std::env::args().skip(1).collect();
    let seconds = words.first().map_or(Ok(SECONDS), |word| word.parse());
    let end = match seconds {
        Ok(seconds) => run(seconds, words.get(1..).unwrap_or_default()),
        Err(_) => Err("usage: bench [SECONDS [NAME..]]".into()),
    };
    if let Err(fault) = &end {
        eprintln!("bench: {fault}");
    }
    if end.is_ok() { ExitCode::SUCCESS } else { ExitCode::FAILURE }
}
