//! What is timed. Each case has a best x in every lane, so that both sides accept it at the same test.

use crate::generate::{give_sides, lane_tolerances};
use crate::problem::{LANES, Matrix, Problem};
use crate::random::Random;

const SEED: u64 = 20261104;
const ROWS: usize = 256;
const LIMIT: usize = 400;
const TOLERANCE: f64 = 1e-8;

pub struct Case {
    pub name: &'static str,
    pub problem: Problem,
}

/// Row i holds columns i and i + 1.
fn trunk() -> Matrix {
    let rows: Vec<Vec<usize>> = (0..ROWS).map(|i| vec![i, i + 1]).collect();
    Matrix::from_rows(ROWS + 1, &rows)
}

/// Row i holds four columns of its own and the first of the next row.
fn wide_trunk() -> Matrix {
    let n = 4 * ROWS;
    let rows: Vec<Vec<usize>> = (0..ROWS).map(|i| (4 * i..(4 * i + 5).min(n)).collect()).collect();
    Matrix::from_rows(n, &rows)
}

/// One row, the hub, shares a column with each other row.
fn star(hub: usize) -> Matrix {
    let rows: Vec<Vec<usize>> = (0..ROWS)
        .map(|i| match i {
            i if i == hub => (0..ROWS - 1).collect(),
            i if i < hub => vec![i],
            i => vec![i - 1],
        })
        .collect();
    Matrix::from_rows(ROWS - 1, &rows)
}

/// `each` columns at random in every row.
fn scattered(random: &mut Random, m: usize, n: usize, each: usize) -> Matrix {
    let rows: Vec<Vec<usize>> = (0..m)
        .map(|_| {
            let mut columns: Vec<usize> = (0..n).collect();
            for k in 0..each {
                columns.swap(k, random.between(k, n - 1));
            }
            columns.truncate(each);
            columns.sort();
            columns
        })
        .collect();
    Matrix::from_rows(n, &rows)
}

/// Every row holds column 0 and one of its own.
fn dense_column() -> Matrix {
    let rows: Vec<Vec<usize>> = (0..ROWS).map(|i| vec![0, i + 1]).collect();
    Matrix::from_rows(ROWS + 1, &rows)
}

fn full(m: usize, n: usize) -> Matrix {
    Matrix::from_rows(n, &vec![(0..n).collect(); m])
}

/// Rows are the nodes of a grid and columns its edges.
fn grid(side: usize) -> Matrix {
    let mut rows = vec![Vec::new(); side * side];
    let mut edge = 0;
    for i in 0..side * side {
        for (is_inside, other) in [(i % side + 1 < side, i + 1), (i / side + 1 < side, i + side)] {
            if is_inside {
                rows[i].push(edge);
                rows[other].push(edge);
                edge += 1;
            }
        }
    }
    rows.iter_mut().for_each(|row| row.sort());
    Matrix::from_rows(edge, &rows)
}

fn case(name: &'static str, matrix: Matrix, by_lane: [f64; LANES]) -> Case {
    let mut random = Random::new(SEED);
    let mut problem = Problem {
        values: (0..matrix.entries()).map(|_| random.float(0.5, 2.0)).collect(),
        s: matrix.m,
        tolerances: lane_tolerances(by_lane),
        limit: LIMIT,
        matrix,
        ..Problem::default()
    };
    give_sides(&mut random, &mut problem, [1.0; LANES]);
    Case { name, problem }
}

pub fn all() -> Vec<Case> {
    let mut random = Random::new(SEED);
    let same = [TOLERANCE; LANES];
    // Two lanes are done at test 1, one halfway, one at the end.
    let mixed = [1e9, 1e9, 1.0, TOLERANCE];
    vec![
        case("1x1", full(1, 1), same),
        case("16x32, t 128", scattered(&mut random, 16, 32, 8), same),
        case("trunk 256", trunk(), same),
        case("trunk, n 1024", wide_trunk(), same),
        case("star, hub first", star(0), same),
        case("star, hub last", star(ROWS - 1), same),
        case("random, t 2048", scattered(&mut random, ROWS, 1024, 8), same),
        case("random, t 16384", scattered(&mut random, ROWS, 1024, 64), same),
        case("one dense column", dense_column(), same),
        case("64 dense columns", full(ROWS, 64), same),
        case("grid 16x16", grid(16), same),
        case("mixed lanes, trunk", trunk(), mixed),
        case("mixed lanes, grid", grid(16), mixed),
    ]
}
