//! Answers of the library through the safe interface.

#[path = "answers/files.rs"]
mod files;
#[path = "answers/fractions.rs"]
mod fractions;
#[path = "answers/sizes.rs"]
mod sizes;

use std::num::NonZeroUsize;

use ipm::library::{self, Answer, Lent, Matrix, Sides};
use ipm::{LANES, Lane, Refusal, Solution, Solver, Tolerances};

fn limit(tests: usize) -> NonZeroUsize {
    NonZeroUsize::new(tests).expect("not 0")
}

fn everywhere(tolerance: f64) -> Tolerances {
    let each = [tolerance; LANES];
    Tolerances { primal_feasibility: each, dual_feasibility: each, optimality: each }
}

/// One row, one column, all numbers 1.
fn smallest() -> Solver {
    Solver::from_data(1, 1, vec![0, 1], vec![0], vec![1.0], 1).expect("a right matrix")
}

/// x0 + x1 ≤ b0, x0 ≤ b1, x1 ≤ b2.
fn three_rows() -> Solver {
    Solver::from_data(3, 2, vec![0, 2, 3, 4], vec![0, 1, 0, 1], vec![1.0; 4], 3).expect("a right matrix")
}

const SIDES: [[f64; 3]; LANES] = [[4.0, 3.0, 2.0], [5.0, 3.0, 2.0], [2.0, 3.0, 2.0], [10.0, 1.0, 1.0]];
const BEST: [[f64; 2]; LANES] = [[3.0, 1.0], [3.0, 2.0], [2.0, 0.0], [1.0, 1.0]];
const NEAR: f64 = 1e-6;

fn lanes(sides: &[[f64; 3]; LANES]) -> [Lane<'_>; LANES] {
    sides.each_ref().map(|b| Lane { b, c: &[2.0, 1.0] })
}

/// `SIDES` entry by entry, and c.
fn entries() -> ([[f64; LANES]; 3], [[f64; LANES]; 2]) {
    (std::array::from_fn(|row| SIDES.map(|side| side[row])), [[2.0; LANES], [1.0; LANES]])
}

fn assert_best(solution: &Solution<'_>) {
    for (lane, best) in BEST.iter().enumerate() {
        let x: Vec<f64> = solution.lane(lane).collect();
        assert!(x.iter().zip(best).all(|(p, q)| (p - q).abs() < NEAR), "lane {lane}: {x:?}");
    }
}

/// x, then y.
fn solved(solver: &mut Solver, sides: &[[f64; 3]; LANES]) -> Vec<[f64; LANES]> {
    let solution = solver.solve_lanes(lanes(sides), &Tolerances::default(), limit(100)).expect("a yes");
    [solution.x, solution.y].concat()
}

/// The matrix of `smallest`, to be lent.
fn smallest_matrix() -> Matrix {
    Matrix { m: 1, n: 1, s: 1, offsets: vec![0, 1], columns: vec![0], values: vec![1.0] }
}

/// The matrix of `three_rows`, to be lent.
fn three_rows_matrix() -> Matrix {
    Matrix { m: 3, n: 2, s: 3, offsets: vec![0, 2, 3, 4], columns: vec![0, 1, 0, 1], values: vec![1.0; 4] }
}

/// Memory lent to a solve of a small matrix. Before the solve every number is one that no solve gives.
#[derive(Clone, Debug, PartialEq)]
struct Memory {
    output: Vec<f64>,
    prices: Vec<f64>,
    index: Vec<u32>,
    work: Vec<f64>,
}

impl Memory {
    const BEFORE: f64 = -7.25;

    fn new(output: usize, prices: usize) -> Self {
        let numbers = |count| vec![Self::BEFORE; count];
        Memory { output: numbers(output), prices: numbers(prices), index: vec![u32::MAX; 100], work: numbers(200) }
    }

    fn lent(&mut self) -> Lent<'_> {
        let Memory { output, prices, index, work } = self;
        Lent { output, prices, index, work }
    }

    fn solve(&mut self, matrix: &Matrix, sides: Sides<'_>) -> Answer {
        library::solve(matrix, sides, self.lent())
    }

    fn outputs_are_as_before(&self) -> bool {
        self.output.iter().chain(&self.prices).all(|&number| number == Self::BEFORE)
    }
}

#[test]
fn wide_tolerances_are_met_at_test_1() {
    let mut solver = smallest();
    let solution = solver.solve(&[[1.0; LANES]], &[[1.0; LANES]], &everywhere(1e9), limit(1)).expect("a yes");
    assert_eq!(solution.test, 1);
    assert_eq!(solution.x, [[1000.0; LANES]]);
    assert_eq!(solution.y, [[1000.0; LANES]]);
}

#[test]
fn an_accepted_solve_says_the_length_of_y() {
    for (matrix, length) in [(smallest_matrix(), 4), (three_rows_matrix(), 12)] {
        let (b, c) = (vec![1.0; LANES * matrix.m], vec![1.0; LANES * matrix.n]);
        let mut memory = Memory::new(c.len(), b.len());
        let sides = Sides { b: &b, c: &c, tolerances: &[1e9; 3 * LANES], limit: 1, file: None };
        assert_eq!(memory.solve(&matrix, sides), Answer { length, question: 0, place: 1, lane: 0 });
        assert_eq!(memory.prices, vec![1000.0; b.len()]);
    }
}

#[test]
fn a_plan_has_no_length() {
    let plan = |words| library::plan(&smallest_matrix(), &mut vec![0; words]);
    assert_eq!(plan(19), Answer { length: 0, question: 0, place: 19, lane: 0 });
    assert_eq!(plan(18), Answer { length: 0, question: 6, place: 0, lane: 0 });
}

#[test]
fn a_refused_solve_leaves_both_outputs() {
    let matrix = three_rows_matrix();
    let b = [4.0, 5.0, 2.0, 10.0, 3.0, 3.0, 3.0, 1.0, 2.0, 2.0, 2.0, 1.0];
    let mut nan_in_lane_2 = b;
    nan_in_lane_2[LANES + 2] = f64::NAN;
    let c = [2.0, 2.0, 2.0, 2.0, 1.0, 1.0, 1.0, 1.0];
    let (x_len, y_len) = (LANES * matrix.n, LANES * matrix.m);
    for (b, prices, limit, question, place, lane) in [
        (b, 0, 100, 8, 0, 0),
        (b, y_len - 1, 100, 8, 0, 0),
        (b, y_len + 1, 100, 8, 0, 0),
        (b, x_len, 100, 8, 0, 0),
        (b, y_len, 0, 10, 0, 0),
        (nan_in_lane_2, y_len, 100, 11, 2, 2),
        (b, y_len, 3, 12, 3, 0),
    ] {
        let mut memory = Memory::new(x_len, prices);
        let sides = Sides { b: &b, c: &c, tolerances: &[1e-8; 3 * LANES], limit, file: None };
        assert_eq!(memory.solve(&matrix, sides), Answer { length: 0, question, place, lane });
        assert!(memory.outputs_are_as_before(), "question {question}, {prices} prices");
    }
}

#[test]
fn each_lane_has_its_own_best() {
    let mut solver = three_rows();
    let solution = solver.solve_lanes(lanes(&SIDES), &Tolerances::default(), limit(100)).expect("a yes");
    assert_best(&solution);
}

/// Prices that are nowhere negative and cover c in every column bound c·x by b·y; they are right if the two meet.
#[test]
fn a_lane_gets_the_price_of_its_limits() {
    let mut solver = three_rows();
    let solution = solver.solve_lanes(lanes(&SIDES), &Tolerances::default(), limit(100)).expect("a yes");
    for (lane, b) in SIDES.iter().enumerate() {
        let x: Vec<f64> = solution.lane(lane).collect();
        let y: Vec<f64> = solution.lane_prices(lane).collect();
        let paid: f64 = b.iter().zip(&y).map(|(p, q)| p * q).sum();
        assert!((paid - (2.0 * x[0] + x[1])).abs() < NEAR, "lane {lane}: {x:?} {y:?}");
        assert!(y.len() == 3 && y.iter().all(|&price| price > -NEAR), "lane {lane}: {y:?}");
        assert!(y[0] + y[1] > 2.0 - NEAR && y[0] + y[2] > 1.0 - NEAR, "lane {lane}: {y:?}");
    }
}

#[test]
fn a_solver_is_used_again() {
    let mut solver = three_rows();
    let first = solved(&mut solver, &SIDES);
    let mut turned = SIDES;
    turned.rotate_right(1);
    let second = solved(&mut solver, &turned);
    for (p, q) in first.iter().zip(&second) {
        assert_eq!(p.map(f64::to_bits), [q[1], q[2], q[3], q[0]].map(f64::to_bits), "lanes do not meet");
    }
}

#[test]
fn interleaved_and_one_by_one_agree() {
    let mut solver = three_rows();
    let one_by_one = solved(&mut solver, &SIDES);
    let (b, c) = entries();
    let together = solver.solve(&b, &c, &Tolerances::default(), limit(100)).expect("a yes");
    assert_eq!([together.x, together.y].concat(), one_by_one);
}

#[test]
fn matrices_are_refused_at_once() {
    let refusal = |m, n, offsets: &[usize], columns: &[usize], values: usize, s| {
        Solver::from_data(m, n, offsets.to_vec(), columns.to_vec(), vec![1.0; values], s).err()
    };
    assert_eq!(refusal(0, 1, &[0], &[], 0, 0), Some(Refusal::Rows));
    assert_eq!(refusal(257, 1, &[0; 258], &[], 0, 0), Some(Refusal::Rows));
    assert_eq!(refusal(usize::MAX, 1, &[0], &[], 0, 0), Some(Refusal::Rows));
    assert_eq!(refusal(1, 0, &[0, 0], &[], 0, 0), Some(Refusal::Columns));
    assert_eq!(refusal(1, 1025, &[0, 1], &[0], 1, 0), Some(Refusal::Columns));
    assert_eq!(refusal(1, 1, &[0, 2], &[0], 1, 0), Some(Refusal::Lists));
    assert_eq!(refusal(1, 1, &[0, 1], &[0], 2, 0), Some(Refusal::Lists));
    assert_eq!(refusal(1, 1, &[0, 1 << 32], &[], 0, 0), Some(Refusal::Lists));
    assert_eq!(refusal(2, 1, &[0, 0, 1], &[0], 1, 0), Some(Refusal::EmptyRow { row: 0 }));
    assert_eq!(refusal(2, 2, &[0, 1, 3], &[0, 1, 1], 3, 0), Some(Refusal::ColumnOrder { row: 1 }));
    assert_eq!(refusal(1, 1, &[0, 1], &[1 << 32], 1, 0), Some(Refusal::ColumnOrder { row: 0 }));
    assert_eq!(refusal(1, 1, &[0, 1], &[0], 1, 2), Some(Refusal::SlackRows));
    assert_eq!(refusal(1, 1, &[0, 1], &[0], 1, 1), None);
}

/// A wrong number of values is a no at 3, after 1 and 2 and before 4, 5 and 7.
#[test]
fn a_wrong_number_of_values_is_refused_in_its_turn() {
    let refusal = |m, n, offsets: &[usize], columns: &[usize], s| {
        let values = vec![1.0; columns.len() + 1];
        Solver::from_data(m, n, offsets.to_vec(), columns.to_vec(), values, s).err()
    };
    assert_eq!(refusal(0, 1, &[0], &[], 0), Some(Refusal::Rows));
    assert_eq!(refusal(1, 0, &[0, 0], &[], 0), Some(Refusal::Columns));
    assert_eq!(refusal(2, 1, &[0, 0, 1], &[0], 0), Some(Refusal::Lists));
    assert_eq!(refusal(1, 2, &[0, 2], &[1, 1], 0), Some(Refusal::Lists));
    assert_eq!(refusal(1, 1, &[0, 1], &[0], 2), Some(Refusal::Lists));
    assert_eq!(refusal(1, 1, &[0, 1], &[0], 1), Some(Refusal::Lists));
}

#[test]
fn more_inequalities_than_rows_are_refused_last() {
    let refusal = |offsets: &[usize], columns: &[usize]| {
        let values = vec![1.0; columns.len()];
        Solver::from_data(2, 2, offsets.to_vec(), columns.to_vec(), values, usize::MAX).err()
    };
    assert_eq!(refusal(&[0, 2], &[0, 1]), Some(Refusal::Lists));
    assert_eq!(refusal(&[0, 2, 2], &[0, 1]), Some(Refusal::EmptyRow { row: 1 }));
    assert_eq!(refusal(&[0, 1, 3], &[0, 1, 1]), Some(Refusal::ColumnOrder { row: 1 }));
    assert_eq!(refusal(&[0, 1, 3], &[0, 0, 1]), Some(Refusal::SlackRows));
}

#[test]
fn solves_are_refused() {
    let one = [[1.0; LANES]];
    let solve = |b: &[[f64; LANES]], c: &[[f64; LANES]], tolerances: &Tolerances, tests| {
        smallest().solve(b, c, tolerances, limit(tests)).map(|solution| solution.test)
    };
    assert_eq!(solve(&[], &one, &everywhere(1e9), 1), Err(Refusal::Lengths));
    assert_eq!(solve(&one, &[[1.0; LANES]; 2], &everywhere(1e9), 1), Err(Refusal::Lengths));
    assert_eq!(solve(&one, &one, &everywhere(1e9), 10_001), Err(Refusal::Limit));
    let nan_in_lane_2 = [[1.0, 1.0, f64::NAN, 1.0]];
    assert_eq!(solve(&nan_in_lane_2, &one, &everywhere(1e-8), 2), Err(Refusal::Spoilt { test: 2, lane: 2 }));
    let never = Tolerances { dual_feasibility: [0.0; LANES], ..everywhere(1e9) };
    assert_eq!(solve(&one, &[[0.0; LANES]], &never, 1), Err(Refusal::NotDone { limit: 1 }));
}

#[test]
fn lanes_of_the_wrong_length_are_refused() {
    let mut sides = lanes(&SIDES);
    sides[3].b = &[1.0, 1.0];
    let refusal = three_rows().solve_lanes(sides, &Tolerances::default(), limit(100)).err();
    assert_eq!(refusal, Some(Refusal::Lengths));
}

#[test]
fn the_largest_matrix_fits_its_memory() {
    let (m, n) = (256, 64);
    let offsets = (0..=m).map(|row| row * n).collect();
    let columns = (0..m * n).map(|place| place % n).collect();
    let mut solver = Solver::from_data(m, n, offsets, columns, vec![1.0; m * n], m).expect("a right matrix");
    let (b, c) = (vec![[1.0; LANES]; m], vec![[1.0; LANES]; n]);
    assert_eq!(solver.solve(&b, &c, &everywhere(1e9), limit(1)).map(|solution| solution.test), Ok(1));
}

#[test]
fn refusals_speak() {
    assert_eq!(Refusal::Spoilt { test: 2, lane: 3 }.to_string(), "lane 3 met a NaN at test 2");
    assert_eq!(Refusal::NotDone { limit: 50 }.to_string(), "not all lanes were done within 50 tests");
    assert_eq!(Refusal::Fractions.to_string(), "centring or damping is not above 0 and below 1");
    assert_eq!(Refusal::FileLists.to_string(), "a list of the file is not this matrix's");
    assert_eq!(Refusal::EmptyRow { row: 7 }.question(), 4);
    assert_eq!(Refusal::Fractions.question(), 13);
    assert_eq!([Refusal::FileCut, Refusal::FileKinds, Refusal::FileLists].map(|no| no.question()), [14, 15, 16]);
}

#[test]
fn roots() {
    assert_eq!(ipm::root_bits(2f64.to_bits()), 0x3ff6_a09e_667f_3bcd);
    assert_eq!(ipm::root_bits((-1f64).to_bits()), 0x7ff8_0000_0000_0000);
    assert_eq!(ipm::root_bits((-0f64).to_bits()), (-0f64).to_bits());
}
