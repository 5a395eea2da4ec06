//! Random problems, a function for each kind.

use crate::problem::{LANES, MOST_COLUMNS, MOST_ENTRIES, MOST_ROWS, MOST_TESTS, Matrix, Problem};
use crate::random::Random;

/// Numbers at the edges of the format, and plain ones.
pub const EDGES: [f64; 22] = [
    0.0,
    -0.0,
    1.0,
    -1.0,
    2.5,
    1000.0,
    -1000.0,
    1e-8,
    5e-324,
    -5e-324,
    2.2e-308,
    1e-310,
    1e-160,
    1e100,
    1e150,
    -1e150,
    1.3e154,
    1.7e308,
    -1.7e308,
    f64::INFINITY,
    f64::NEG_INFINITY,
    f64::NAN,
];

const TOLERANCES: [f64; 12] = [1e-8, 1e-8, 1e-6, 1e-3, 1.0, 1e9, 1e300, f64::INFINITY, 0.0, -1.0, 5e-324, f64::NAN];

/// A matrix whose rows each hold an entry; `tenths` of the rest are stored too.
pub fn matrix(random: &mut Random, m: usize, n: usize, tenths: usize) -> Matrix {
    let mut rows = Vec::new();
    for _ in 0..m {
        let sure = random.below(n);
        rows.push((0..n).filter(|&column| column == sure || random.below(10) < tenths).collect());
    }
    Matrix::from_rows(n, &rows)
}

fn floats(random: &mut Random, count: usize, low: f64, high: f64) -> Vec<f64> {
    (0..count).map(|_| random.float(low, high)).collect()
}

fn slack_rows(random: &mut Random, m: usize) -> usize {
    match random.below(4) {
        0 => 0,
        1 | 2 => m,
        _ => random.between(0, m),
    }
}

/// Each lane's tolerances are one number three times.
pub fn lane_tolerances(by_lane: [f64; LANES]) -> Vec<f64> {
    by_lane.repeat(3)
}

/// Values above zero, with some zeros of either sign and some below.
fn plain_values(random: &mut Random, count: usize) -> Vec<f64> {
    let mut values = floats(random, count, 0.1, 5.0);
    for value in values.iter_mut() {
        match random.below(40) {
            0 => *value = 0.0,
            1 => *value = -0.0,
            2 | 3 => *value = -*value,
            _ => {}
        }
    }
    values
}

/// Gives b and c such that some x, w, y and z above zero meet every row and column, so that a best x exists. The
/// numbers have a size of their own in each lane.
pub fn give_sides(random: &mut Random, problem: &mut Problem, scales: [f64; LANES]) {
    let (m, n) = (problem.matrix.m, problem.matrix.n);
    let x = floats(random, LANES * n, 0.5, 5.0);
    let y = floats(random, LANES * m, 0.1, 3.0);
    let rests = floats(random, LANES * m, 0.1, 9.0);
    problem.b =
        (0..LANES * m).map(|k| if k / LANES < problem.s { rests[k] * scales[k % LANES] } else { 0.0 }).collect();
    problem.c = floats(random, LANES * n, -2.0, -0.1);
    for i in 0..m {
        for place in problem.matrix.places(i) {
            let (e, a) = (problem.matrix.columns[place] as usize, problem.values[place]);
            for l in 0..LANES {
                problem.b[LANES * i + l] += a * x[LANES * e + l] * scales[l];
                problem.c[LANES * e + l] += a * y[LANES * i + l];
            }
        }
    }
}

/// A problem that has a best x in each lane.
pub fn solvable(random: &mut Random, most_rows: usize, most_columns: usize) -> Problem {
    let (m, n) = (random.between(1, most_rows), random.between(1, most_columns));
    let tenths = random.between(1, 8);
    let matrix = matrix(random, m, n, tenths);
    let by_lane = std::array::from_fn(|_| random.pick(&[1e-8, 1e-8, 1e-8, 1e-6, 1e-2, 1.0]));
    let mut problem = Problem {
        values: plain_values(random, matrix.entries()),
        s: slack_rows(random, m),
        tolerances: lane_tolerances(by_lane),
        limit: 120,
        matrix,
        ..Problem::default()
    };
    let scales = std::array::from_fn(|_| random.pick(&[0.01, 1.0, 1.0, 100.0, 1e6]));
    give_sides(random, &mut problem, scales);
    problem
}

/// A solvable problem in which one lane is done at once or soon, and the others are slow.
pub fn early(random: &mut Random) -> Problem {
    let mut problem = solvable(random, 5, 6);
    let first = random.below(LANES);
    let soon = random.pick(&[1e9, 1e9, 10.0, 1.0, 0.1]);
    problem.tolerances = lane_tolerances(std::array::from_fn(|l| if l == first { soon } else { 1e-8 }));
    problem
}

fn edge_or(random: &mut Random, rarity: usize, plain: f64) -> f64 {
    if random.once_in(rarity) { random.pick(&EDGES) } else { plain }
}

/// Numbers at the edges of the format anywhere; how many is drawn for each problem.
pub fn edges(random: &mut Random, most_rows: usize, most_columns: usize) -> Problem {
    let mut problem = solvable(random, most_rows, most_columns);
    let rarity = random.pick(&[1, 2, 3, 8, 20]);
    for list in [&mut problem.values, &mut problem.b, &mut problem.c] {
        for number in list.iter_mut() {
            *number = edge_or(random, rarity, *number);
        }
    }
    if random.once_in(2) {
        problem.tolerances = (0..3 * LANES).map(|_| random.pick(&TOLERANCES)).collect();
    }
    problem.limit = random.between(1, 40);
    problem
}

/// One lane has an edge number in b or c, so that it is spoilt alone; the others have a best x.
pub fn one_bad_lane(random: &mut Random) -> Problem {
    let mut problem = solvable(random, 4, 5);
    let bad = random.below(LANES);
    let list = if random.once_in(2) { &mut problem.b } else { &mut problem.c };
    let entry = random.below(list.len() / LANES);
    list[LANES * entry + bad] = random.pick(&EDGES);
    problem.tolerances = lane_tolerances([1e-8; LANES]);
    problem
}

/// Right sides that no x meets, or columns without bound: the numbers run away, and lanes are spoilt late if at all.
pub fn runaway(random: &mut Random) -> Problem {
    let mut problem = solvable(random, 4, 5);
    for number in problem.b.iter_mut().chain(problem.values.iter_mut()) {
        if random.once_in(2) {
            *number = -*number;
        }
    }
    let by_lane = std::array::from_fn(|_| random.pick(&[1e-300, 1e-30, 1e-14, 1e-8]));
    problem.tolerances = lane_tolerances(by_lane);
    problem.limit = 400;
    problem
}

/// Tiny values without slack rows: a large right side gives a step that is not finite, in a lane that is done at once.
pub fn bad_wait(random: &mut Random) -> Problem {
    let mut problem = solvable(random, 3, 4);
    problem.s = if random.once_in(4) { random.between(0, problem.matrix.m) } else { 0 };
    let size = random.pick(&[1e-150, 1e-156, 1e-160]);
    problem.values.iter_mut().for_each(|value| *value *= size);
    let waiting = random.below(LANES);
    let huge = random.pick(&[1e100, 1e140, 1e150]);
    for (k, number) in problem.b.iter_mut().enumerate() {
        *number = if k % LANES == waiting { *number * huge } else { random.pick(&[0.0, 0.0, 1e-140, 1.0]) };
    }
    problem.tolerances = lane_tolerances(std::array::from_fn(|l| if l == waiting { 1e300 } else { 1e-8 }));
    problem.limit = random.between(2, 12);
    problem
}

/// A small problem of each kind that questions 1 to 10 let pass.
pub fn each_kind(random: &mut Random) -> [(&'static str, Problem); 7] {
    [
        ("solvable", solvable(random, 6, 8)),
        ("early finisher", early(random)),
        ("one bad lane", one_bad_lane(random)),
        ("edge numbers", edges(random, 3, 3)),
        ("edge numbers", edges(random, 5, 6)),
        ("runaway", runaway(random)),
        ("bad wait", bad_wait(random)),
    ]
}

/// A problem with one thing wrong that a record can say: questions 1 to 5, 7 and 10.
pub fn wrong(random: &mut Random) -> Problem {
    let mut problem = solvable(random, 4, 5);
    let (m, n, t) = (problem.matrix.m, problem.matrix.n, problem.matrix.entries());
    let matrix = &mut problem.matrix;
    match random.below(11) {
        0 => problem = without_rows(problem),
        1 => problem = without_columns(problem),
        2 => matrix.offsets[0] = random.between(1, 3) as u32,
        3 => matrix.offsets[m] = random.pick(&[t + 1, t - 1, 0, 65535]) as u32,
        4 => matrix.offsets[random.between(0, m)] = random.between(0, t + 2) as u32,
        5 => matrix.offsets[random.between(1, m)] = matrix.offsets[random.below(m)],
        6 => matrix.columns[random.below(t)] = random.pick(&[n, n + 1, 65535]) as u32,
        7 => matrix.columns[random.below(t)] = random.below(n) as u32,
        8 => problem.s = m + random.pick(&[1, 1, 2, 60000]),
        9 => problem.limit = random.pick(&[0, MOST_TESTS + 1, 65535]),
        _ => matrix.columns.reverse(),
    }
    if random.once_in(6) {
        problem.limit = 0;
    }
    problem
}

pub fn without_rows(problem: Problem) -> Problem {
    let matrix = Matrix { m: 0, offsets: vec![0], columns: Vec::new(), ..problem.matrix };
    Problem { matrix, values: Vec::new(), b: Vec::new(), s: 0, ..problem }
}

pub fn without_columns(problem: Problem) -> Problem {
    let matrix = Matrix { n: 0, offsets: vec![0; problem.matrix.m + 1], columns: Vec::new(), ..problem.matrix };
    Problem { matrix, values: Vec::new(), c: Vec::new(), ..problem }
}

/// A matrix at or near the largest sizes: every row in one column, a band, or entries at random up to the limit.
pub fn large_matrix(random: &mut Random) -> Matrix {
    let m = random.pick(&[MOST_ROWS, MOST_ROWS, MOST_ROWS - 1, 100]);
    let n = random.pick(&[MOST_COLUMNS, MOST_COLUMNS, MOST_COLUMNS - 1, 64]);
    let kind = random.below(4);
    let rows: Vec<Vec<usize>> = (0..m)
        .map(|i| match kind {
            0 => vec![0, 1 + i % (n - 1)],
            1 => vec![i % (n - 1), i % (n - 1) + 1],
            2 => scattered(random, n, 2),
            _ => (0..n).filter(|column| column % (n * m / MOST_ENTRIES + 1) == i % 2).collect(),
        })
        .collect();
    Matrix::from_rows(n, &rows)
}

fn scattered(random: &mut Random, n: usize, most: usize) -> Vec<usize> {
    let mut columns: Vec<usize> = (0..random.between(1, most)).map(|_| random.below(n)).collect();
    columns.sort();
    columns.dedup();
    columns
}

pub fn large(random: &mut Random) -> Problem {
    let matrix = large_matrix(random);
    let (m, n, t) = (matrix.m, matrix.n, matrix.entries());
    Problem {
        matrix,
        values: floats(random, t, 0.1, 2.0),
        s: random.pick(&[0, m / 2, m, m]),
        b: floats(random, LANES * m, 100.0, 500.0),
        c: floats(random, LANES * n, 0.0, 5.0),
        tolerances: lane_tolerances([1e-8, 1e-6, 1e-3, 1.0]),
        limit: 100,
        ..Problem::default()
    }
}

/// m rows and n columns with t entries, as even as can be; done at test 1 unless the tolerance is small.
pub fn sized(m: usize, n: usize, t: usize, tolerance: f64) -> Problem {
    let rows: Vec<Vec<usize>> = (0..m).map(|i| (0..(t + i) / m).collect()).collect();
    Problem {
        matrix: Matrix::from_rows(n, &rows),
        values: vec![1.0; t],
        s: m,
        b: (0..LANES * m).map(|k| 1.0 + k as f64).collect(),
        c: (0..LANES * n).map(|k| 1.0 + (k % 7) as f64).collect(),
        tolerances: lane_tolerances([tolerance; LANES]),
        limit: 3,
        ..Problem::default()
    }
}

/// No lane is ever done or spoilt: the step's length is too small to move a number.
pub fn never_done() -> Problem {
    Problem { values: vec![1e100], s: 0, b: vec![1e100; LANES], c: vec![-1e100; LANES], ..sized(1, 1, 1, -1.0) }
}
