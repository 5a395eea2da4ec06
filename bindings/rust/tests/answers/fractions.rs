//! Centring and damping of the caller's, and question 13.

use ipm::library::{self, Answer, Sides};
use ipm::{CENTRING, DAMPING, LANES, Refusal, Solution, Tolerances};

use super::{Memory, assert_best, entries, limit, three_rows, three_rows_matrix};

/// 2^-1074 and 1 - 2^-53, the first and the last number that question 13 lets pass.
const SMALLEST: f64 = f64::from_bits(1);
const LARGEST: f64 = 1.0 - f64::EPSILON / 2.0;

const SIGNALLING_NAN: f64 = f64::from_bits(0x7ff0_0000_0000_0001);

/// Numbers that question 13 refuses.
const REFUSED: [f64; 13] = [
    f64::NAN,
    -f64::NAN,
    SIGNALLING_NAN,
    0.0,
    -0.0,
    -SMALLEST,
    -CENTRING,
    -1.0,
    1.0,
    1.0 + f64::EPSILON,
    2.0,
    f64::INFINITY,
    f64::NEG_INFINITY,
];

/// The library's answer about the three rows, and whether the memory lent is as it was. A solve is done at test 1.
fn ask(b: &[f64], limit: usize, centring: f64, damping: f64) -> (Answer, bool) {
    let matrix = three_rows_matrix();
    let (_, c) = entries();
    let mut memory = Memory::new(LANES * matrix.n, LANES * matrix.m);
    let before = memory.clone();
    let sides = Sides { b, c: c.as_flattened(), tolerances: &[1e9; 3 * LANES], limit, file: None };
    let answer = library::solve_with(&matrix, sides, memory.lent(), centring, damping);
    (answer, memory == before)
}

fn refused_at(question: u32) -> (Answer, bool) {
    (Answer { length: 0, question, place: 0, lane: 0 }, true)
}

/// The test, and the bits of x and y.
type Told = (usize, Vec<[u64; LANES]>);

fn told(solution: Solution<'_>) -> Told {
    (solution.test, solution.x.iter().chain(solution.y).map(|entry| entry.map(f64::to_bits)).collect())
}

fn solved_with(centring: f64, damping: f64) -> Result<Told, Refusal> {
    let (b, c) = entries();
    let mut solver = three_rows();
    let solution = solver.solve_with(&b, &c, &Tolerances::default(), limit(100), centring, damping)?;
    assert_best(&solution);
    Ok(told(solution))
}

#[test]
fn a_solve_that_is_given_neither_has_the_constants() {
    let (b, c) = entries();
    let plain = three_rows().solve(&b, &c, &Tolerances::default(), limit(100)).map(told);
    assert!(plain.is_ok());
    assert_eq!(plain, solved_with(CENTRING, DAMPING));

    let sides =
        Sides { b: b.as_flattened(), c: c.as_flattened(), tolerances: &[1e-8; 3 * LANES], limit: 100, file: None };
    let matrix = three_rows_matrix();
    let mut memory = Memory::new(LANES * matrix.n, LANES * matrix.m);
    let mut other = memory.clone();
    let answer = memory.solve(&matrix, sides);
    assert_eq!(answer, library::solve_with(&matrix, sides, other.lent(), CENTRING, DAMPING));
    assert_eq!(memory, other);
}

#[test]
fn other_numbers_go_another_way_to_the_best() {
    let usual = solved_with(CENTRING, DAMPING).expect("a yes");
    for (centring, damping) in [(0.5, 0.9), (0.5, DAMPING), (CENTRING, 0.5), (0.01, DAMPING)] {
        let (test, bits) = solved_with(centring, damping).expect("a yes");
        assert_ne!(test, usual.0, "{centring} {damping}");
        assert_ne!(bits, usual.1, "{centring} {damping}");
    }
}

#[test]
fn every_number_outside_is_refused_and_changes_nothing() {
    let (b, _) = entries();
    for wrong in REFUSED {
        for (centring, damping) in [(wrong, DAMPING), (CENTRING, wrong), (wrong, wrong)] {
            assert_eq!(ask(b.as_flattened(), 1, centring, damping), refused_at(13), "{centring} {damping}");
            assert_eq!(solved_with(centring, damping), Err(Refusal::Fractions), "{centring} {damping}");
        }
    }
}

#[test]
fn the_smallest_and_the_largest_pass() {
    let (b, _) = entries();
    let accepted = Answer { length: 12, question: 0, place: 1, lane: 0 };
    for centring in [SMALLEST, LARGEST] {
        for damping in [SMALLEST, LARGEST] {
            assert_eq!(ask(b.as_flattened(), 1, centring, damping), (accepted, false), "{centring} {damping}");
        }
    }
}

#[test]
fn question_13_comes_after_10_and_before_the_tests() {
    let (mut b, _) = entries();
    assert_eq!(ask(&b.as_flattened()[1..], 1, f64::NAN, DAMPING), refused_at(8));
    assert_eq!(ask(b.as_flattened(), 0, f64::NAN, DAMPING), refused_at(10));
    b[0][0] = f64::NAN;
    assert_eq!(ask(b.as_flattened(), 2, f64::NAN, DAMPING), refused_at(13));
}
