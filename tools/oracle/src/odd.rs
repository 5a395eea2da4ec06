//! What the Rust does with inputs that questions 1 to 10 refuse: docs/DIFFERENCES.md cites these lines.

use crate::problem::{LANES, Matrix, Problem};
use crate::rust::lists;
use crate::unchanged::{caught, solve_watched};

fn problem(n: usize, rows: &[&[usize]], s: usize, tolerance: f64) -> Problem {
    let rows: Vec<Vec<usize>> = rows.iter().map(|row| row.to_vec()).collect();
    Problem {
        values: vec![1.0; rows.concat().len()],
        b: vec![1.0; LANES * rows.len()],
        c: vec![1.0; LANES * n],
        matrix: Matrix::from_rows(n, &rows),
        s,
        tolerances: vec![tolerance; 3 * LANES],
        limit: 100,
        ..Problem::default()
    }
}

fn with_right_sides(problem: Problem, b: &[f64]) -> Problem {
    Problem { b: b.iter().flat_map(|&number| [number; LANES]).collect(), ..problem }
}

/// Lane 0 of the Rust's x, or its panic, in one line.
fn outcome(problem: &Problem) -> String {
    let (end, trace) = solve_watched(problem);
    let tests = trace.tests;
    match end {
        Ok(solved) => format!("accepted {} x {:?}", tests.len(), crate::problem::lane(&solved.x, 0)),
        Err(text) => format!("panic after {} tests: {text}", tests.len()),
    }
}

fn diagonal(problem: &Problem) -> String {
    match caught(|| lists(&problem.matrix)) {
        Ok(lists) => format!("lindptr {:?} ldiag_indptr {:?}", lists[7], lists[8]),
        Err(text) => format!("panic: {text}"),
    }
}

fn empty_rows() {
    let shapes: [&[&[usize]]; 6] =
        [&[&[]], &[&[], &[0]], &[&[0], &[]], &[&[0], &[], &[0]], &[&[0], &[], &[1]], &[&[0], &[0], &[], &[0]]];
    for rows in shapes {
        let n = 1 + rows.concat().into_iter().max().unwrap_or(0);
        println!("empty row, rows {rows:?}: {}", diagonal(&problem(n, rows, 0, 1e-8)));
        for s in [0, rows.len()] {
            println!("    s {s}: {}", outcome(&problem(n, rows, s, 1e-8)));
        }
    }
    let unnoticed = with_right_sides(problem(2, &[&[0], &[], &[1]], 0, 1e-8), &[1.0, 0.0, 1.0]);
    println!("empty row, rows [[0], [], [1]], s 0, b 1 0 1: {}", outcome(&unnoticed));
    let slack = with_right_sides(problem(1, &[&[0], &[], &[0]], 3, 1e-8), &[1.0, 0.0, 1.0]);
    println!("empty row, rows [[0], [], [0]], s 3, b 1 0 1: {}", outcome(&slack));
}

fn sizes() {
    println!("s above m: {}", outcome(&problem(1, &[&[0]], 2, 1e-8)));
    println!("s above m, done at test 1: {}", outcome(&problem(1, &[&[0]], 2, 1e9)));
    println!("m 0, n 1: {}", outcome(&problem(1, &[], 0, 1e-8)));
    println!("m 0, n 0: {}", outcome(&problem(0, &[], 0, 1e-8)));
    println!("m 0, n 0, tolerances 0: {}", outcome(&problem(0, &[], 0, 0.0)));
    println!("m 1, n 0: {}", outcome(&problem(0, &[&[]], 0, 1e-8)));
    println!("row {{1,1}}: {}", outcome(&problem(2, &[&[1, 1]], 0, 1e-8)));
    println!("column n: {}", outcome(&problem(1, &[&[1]], 0, 1e-8)));
    println!("limit 10001: {}", outcome(&problem(1, &[&[0]], 1, 1e-8).with_limit(10001)));
    println!("limit 0: {}", outcome(&problem(1, &[&[0]], 1, 1e-8).with_limit(0)));
    let wide: Vec<Vec<usize>> = vec![vec![0]; 257];
    let rows: Vec<&[usize]> = wide.iter().map(Vec::as_slice).collect();
    println!("m 257: {}", outcome(&problem(1, &rows, 257, 1e-8)));
}

fn lengths() {
    let good = problem(1, &[&[0]], 1, 1e-8);
    let with = |b: usize, c: usize| Problem { b: vec![1.0; LANES * b], c: vec![1.0; LANES * c], ..good.clone() };
    println!("b too short: {}", outcome(&with(0, 1)));
    println!("c too short: {}", outcome(&with(1, 0)));
    println!("b and c too long: {}", outcome(&with(2, 2)));
    println!("as long as stated: {}", outcome(&with(1, 1)));
    println!("no values: {}", outcome(&Problem { values: vec![], ..good.clone() }));
}

pub fn show() {
    println!("overflow checks: {}", if cfg!(debug_assertions) { "on (debug)" } else { "off (release)" });
    empty_rows();
    sizes();
    lengths();
}
