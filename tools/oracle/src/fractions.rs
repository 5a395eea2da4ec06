//! Centring and damping that only the static library can be given: others than the Rust's, and what question 13 refuses.

use crate::compare::Comparison;
use crate::generate;
use crate::library::enough;
use crate::machine::START;
use crate::problem::{Fractions, LANES, Problem};
use crate::questions::Room;
use crate::random::Random;
use crate::rooms::{compare_solve, exact, vary};

/// 2^-1074 and 1 - 2^-53, the first and the last number that question 13 lets pass.
const SMALLEST: f64 = f64::from_bits(1);
const LARGEST: f64 = 1.0 - f64::EPSILON / 2.0;
const ENDS: [f64; 2] = [SMALLEST, LARGEST];

/// The Rust's two are far from these.
const OTHER: Fractions = Fractions { centring: 0.5, damping: 0.9 };

/// How many powers of two log-spread numbers go down from 1.
const POWERS: usize = 60;

/// Parts of the first test's gap.
const PARTS: [f64; 4] = [0.999, 0.5, 0.1, 0.01];
/// A primal and dual tolerance that is met at once.
const WIDE: f64 = 1e300;

/// NaNs of both signs, quiet and signalling, with one payload and another.
const NANS: [f64; 6] = [
    f64::from_bits(0x7ff8_0000_0000_0000),
    f64::from_bits(0xfff8_0000_0000_0000),
    f64::from_bits(0x7ff0_0000_0000_0001),
    f64::from_bits(0xfff0_0000_0000_0001),
    f64::from_bits(0x7fff_ffff_ffff_ffff),
    f64::from_bits(0xffff_ffff_ffff_ffff),
];

/// The other numbers that question 13 refuses: the nearest to those that pass, and some far from them.
const OUTSIDE: [f64; 14] = [
    0.0,
    -0.0,
    -SMALLEST,
    -f64::MIN_POSITIVE,
    -0.1,
    -0.9995,
    -1.0,
    f64::MIN,
    f64::NEG_INFINITY,
    1.0,
    1.0 + f64::EPSILON,
    2.0,
    f64::MAX,
    f64::INFINITY,
];

fn with(problem: &Problem, fractions: Fractions) -> Problem {
    Problem { fractions, ..problem.clone() }
}

fn pair(mut number: impl FnMut() -> f64) -> Fractions {
    Fractions { centring: number(), damping: number() }
}

fn uniform(random: &mut Random) -> f64 {
    random.float(0.0, 1.0).clamp(SMALLEST, LARGEST)
}

/// As far from 0 or from 1 as a power of two that is drawn evenly.
fn log_spread(random: &mut Random) -> f64 {
    let small = random.float(0.5, 1.0) * 0.5f64.powi(random.below(POWERS) as i32);
    if random.once_in(2) { small } else { (1.0 - small).clamp(SMALLEST, LARGEST) }
}

/// Numbers that pass question 13, with the name that they are counted by.
fn passing(random: &mut Random) -> Vec<(&'static str, Fractions)> {
    let mut all = vec![
        ("0.5 and 0.9", OTHER),
        ("uniform", pair(|| uniform(random))),
        ("log-spread", pair(|| log_spread(random))),
    ];
    for centring in ENDS {
        all.extend(ENDS.map(|damping| ("2^-1074 and 1 - 2^-53", Fractions { centring, damping })));
    }
    all
}

fn refused_numbers() -> Vec<f64> {
    [&NANS[..], &OUTSIDE].concat()
}

/// Every refused number as one of the two, the other being the Rust's, and every two of them.
fn refused() -> Vec<Fractions> {
    let Fractions { centring, damping } = Fractions::default();
    let mut all = Vec::new();
    for wrong in refused_numbers() {
        all.extend([Fractions { centring: wrong, damping }, Fractions { centring, damping: wrong }]);
        all.extend(refused_numbers().into_iter().map(|other| Fractions { centring: wrong, damping: other }));
    }
    all
}

/// A refused number as one of the two or as both.
fn any_refused(random: &mut Random) -> Fractions {
    let numbers = refused_numbers();
    let wrong = pair(|| random.pick(&numbers));
    let proper = pair(|| log_spread(random));
    match random.below(3) {
        0 => Fractions { centring: wrong.centring, ..proper },
        1 => Fractions { damping: wrong.damping, ..proper },
        _ => wrong,
    }
}

/// The problem with a no at 1 to 10, each at a time, but for lengths of memory.
pub fn wrong_before(problem: &Problem) -> Vec<Problem> {
    let changed = |change: fn(&mut Problem)| {
        let mut wrong = problem.clone();
        change(&mut wrong);
        wrong
    };
    vec![
        generate::without_rows(problem.clone()),
        generate::without_columns(problem.clone()),
        changed(|problem| problem.matrix.offsets[0] = 1),
        changed(|problem| problem.values.clear()),
        changed(|problem| problem.matrix.offsets[1] = 0),
        changed(|problem| problem.matrix.columns[0] = problem.matrix.n as u32),
        changed(|problem| problem.s = problem.matrix.m + 1),
        changed(|problem| problem.b.truncate(1)),
        changed(|problem| problem.c.push(1.0)),
        changed(|problem| problem.tolerances.clear()),
        changed(|problem| problem.limit = 0),
    ]
}

/// One number less of each memory: questions 6, 8 and 9.
pub fn short_rooms(room: Room) -> [Room; 4] {
    [
        Room { index: room.index - 1, ..room },
        Room { output: room.output - 1, ..room },
        Room { prices: room.prices - 1, ..room },
        Room { work: room.work - 1, ..room },
    ]
}

fn compare_one(comparison: &mut Comparison, kind: &str, problem: &Problem, room: Room) {
    let answer = compare_solve(comparison, "centring and damping", problem, room);
    comparison.count(format!("centring and damping, kind: {kind}"));
    comparison.count(format!("centring and damping, answers: {}", answer.kind()));
}

/// Done as soon as the gap is a part of what it was at test 1: so that outputs show the numbers of the first steps.
fn loosened(random: &mut Random, problem: Problem) -> Problem {
    let [m, n, s] = [problem.matrix.m, problem.matrix.n, problem.s].map(|size| size as f64);
    let gap = START * START * (n + s) / (1.0 + START * (n.sqrt() + m.sqrt()));
    let tolerances = [vec![WIDE; 2 * LANES], vec![random.pick(&PARTS) * gap; LANES]].concat();
    Problem { tolerances, ..problem }
}

fn compare_passing(comparison: &mut Comparison, random: &mut Random, problem: Problem) {
    let problem = if random.once_in(2) { loosened(random, problem) } else { problem };
    for (kind, fractions) in passing(random) {
        compare_one(comparison, kind, &with(&problem, fractions), enough(&problem));
    }
}

/// Question 13 alone and with each earlier no, in a problem that would be accepted at test 1.
fn compare_refused(comparison: &mut Comparison) {
    let problem = generate::sized(2, 2, 3, 1e9);
    for fractions in refused() {
        let problem = with(&problem, fractions);
        let room = exact(&problem);
        compare_one(comparison, "refused", &problem, room);
        for short in short_rooms(room) {
            compare_one(comparison, "refused with an earlier no", &problem, short);
        }
        for wrong in wrong_before(&problem) {
            compare_one(comparison, "refused with an earlier no", &wrong, exact(&wrong));
        }
    }
}

/// Question 13 in problems of every kind, some with something wrong, and in memory of any length.
fn compare_refused_anywhere(comparison: &mut Comparison, random: &mut Random) {
    let mut problems = generate::each_kind(random).map(|(_, problem)| problem).to_vec();
    problems.push(generate::wrong(random));
    for problem in problems {
        let mut problem = with(&problem, any_refused(random));
        compare_one(comparison, "refused in every kind of problem", &problem, enough(&problem));
        let room = vary(random, &mut problem);
        compare_one(comparison, "refused with lengths varied", &problem, room);
    }
}

pub fn compare(comparison: &mut Comparison, random: &mut Random, scale: usize) {
    compare_refused(comparison);
    for _ in 0..scale {
        for (_, problem) in generate::each_kind(random) {
            compare_passing(comparison, random, problem);
        }
        let wrong = generate::wrong(random);
        compare_passing(comparison, random, wrong);
        compare_refused_anywhere(comparison, random);
    }
    for _ in 0..scale / 20 {
        let problem = generate::solvable(random, 16, 32);
        compare_passing(comparison, random, problem);
    }
    for _ in 0..scale / 100 {
        let (problem, choices) = (generate::large(random), passing(random));
        let (kind, fractions) = random.pick(&choices);
        compare_one(comparison, kind, &with(&problem, fractions), enough(&problem));
    }
}
