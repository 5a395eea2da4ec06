//! The comparison: every answer of the reference beside every other backend's, at scale.

use std::collections::BTreeMap;
use std::fmt::Debug;

use crate::backend::Backend;
use crate::generate;
use crate::machine::factor_pattern;
use crate::plan::pattern;
use crate::problem::{Answer, LANES, MOST_COLUMNS, MOST_ENTRIES, MOST_ROWS, MOST_TESTS, Matrix, Problem};
use crate::questions::{Room, ask_plan};
use crate::random::Random;
use crate::reference::{self, Run};

/// Whether a number is of a kind.
type Is = fn(&f64) -> bool;

/// How many differences are shown whole.
const SHOWN: usize = 5;

pub struct Comparison {
    backends: Vec<Box<dyn Backend>>,
    counts: BTreeMap<String, u64>,
    differences: usize,
}

impl Comparison {
    pub fn new(backends: Vec<Box<dyn Backend>>) -> Self {
        Comparison { backends, counts: BTreeMap::new(), differences: 0 }
    }

    pub fn count(&mut self, what: impl Into<String>) {
        *self.counts.entry(what.into()).or_insert(0) += 1;
    }

    pub fn differ(&mut self, what: String) {
        self.differences += 1;
        if self.differences <= SHOWN {
            println!("DIFFERENCE {what}");
        }
    }

    /// Prints the counts; says whether there was no difference.
    pub fn report(&self) -> bool {
        for (what, count) in &self.counts {
            println!("{count:>9}  {what}");
        }
        println!("{:>9}  differences", self.differences);
        self.differences == 0
    }

    /// One problem: the reference and every backend that takes it.
    pub fn solve(&mut self, kind: &str, problem: &Problem) -> Run {
        let run = reference::run(problem, Room::ample(problem));
        self.count(format!("solves, kind: {kind}"));
        self.count_run(problem, &run);
        let mut faults = Vec::new();
        for backend in &mut self.backends {
            let name = backend.name();
            let fault = match backend.solve(problem) {
                Ok(None) => continue,
                Ok(Some(told)) if !told.answer.agrees(&run.answer) => format!("answers {:?}", told.answer),
                Ok(Some(told)) if told.trace.as_ref().is_some_and(|trace| !trace.agrees(&run.trace)) => {
                    "went another way".into()
                }
                Ok(Some(told)) => {
                    *self.counts.entry(format!("solves compared: {name}")).or_insert(0) += 1;
                    *self.counts.entry(format!("y compared: {name}")).or_insert(0) += u64::from(told.answer.tells_y());
                    continue;
                }
                Err(fault) => fault,
            };
            faults.push(format!("{name} {fault}; the reference {:?}: {problem:?}", run.answer));
        }
        faults.into_iter().for_each(|fault| self.differ(fault));
        run
    }

    fn count_run(&mut self, problem: &Problem, run: &Run) {
        self.count(format!("answers: {}", run.answer.kind()));
        if run.trace.tests.is_empty() {
            return;
        }
        if let Answer::Refused(no) = run.answer
            && no.question == 11
        {
            self.count(format!("spoilt lane {}", no.lane));
            self.count(format!("spoilt at test {}", at_most(no.place, &[1, 2, 3, 5, 10, 30])));
        }
        for l in 0..LANES {
            if run.spoilt_waiting[l] {
                self.count(format!("done lane with a step that is not finite: lane {l}"));
            }
            let others = (0..LANES).filter(|&other| other != l);
            let others_last = others.filter_map(|other| run.first_done(other)).max();
            if let (Answer::Accepted { .. }, Some(first), Some(last)) = (&run.answer, run.first_done(l), others_last)
                && first + 5 <= last
            {
                self.count(format!("early finisher by 5 tests or more: lane {l}"));
            }
        }
        let (s, m) = (problem.s, problem.matrix.m);
        self.count(format!(
            "slack rows: {}",
            if s == 0 {
                "none"
            } else if s == m {
                "all"
            } else {
                "some"
            }
        ));
        self.count_numbers(problem);
    }

    fn count_numbers(&mut self, problem: &Problem) {
        let lists =
            [("values", &problem.values), ("b", &problem.b), ("c", &problem.c), ("tolerances", &problem.tolerances)];
        for (list, numbers) in lists {
            let kinds: [(&str, Is); 5] = [
                ("+0.0", |p| p.to_bits() == 0),
                ("-0.0", |p| p.to_bits() == 1 << 63),
                ("a subnormal", |p| p.is_subnormal()),
                ("an infinity", |p| p.is_infinite()),
                ("NaN", |p| p.is_nan()),
            ];
            for (kind, is) in kinds {
                if numbers.iter().any(is) {
                    self.count(format!("with {kind} in {list}"));
                }
            }
        }
    }

    /// A problem in every lane position, and with limits one below, at and above the test that ended it.
    pub fn solve_around(&mut self, kind: &str, problem: &Problem) {
        for by in 0..LANES {
            let turned = problem.rotated(by);
            let run = self.solve(kind, &turned);
            let end = run.trace.tests.len();
            if by == 0 && !matches!(run.answer, Answer::Refused(no) if no.question == 12) {
                for (limit, what) in [(end.wrapping_sub(1), "one below"), (end, "at"), (end + 1, "one above")] {
                    if (1..=MOST_TESTS).contains(&limit) && !run.trace.tests.is_empty() {
                        self.count(format!("limits: {what} the last test"));
                        self.solve(kind, &turned.with_limit(limit));
                    }
                }
            }
        }
    }

    /// One matrix: the lists, their file, the pattern by the rule and by chains, and what it needs.
    pub fn plan(&mut self, kind: &str, matrix: &Matrix) {
        let wanted = reference::plan(matrix, usize::MAX);
        self.count(format!("plans, kind: {kind}"));
        let problem = Problem { matrix: matrix.clone(), ..Problem::default() };
        if wanted.is_ok() && pattern(matrix) != factor_pattern(&problem) {
            self.differ(format!("rule and chains: {matrix:?}"));
        }
        self.ask_each("plans", &wanted, matrix, |backend| backend.plan(matrix));
        self.ask_each("files written", &reference::file(matrix), matrix, |backend| backend.file(matrix));
        self.sizes(kind, matrix);
    }

    /// What one matrix needs, with few slack rows, with all and with too many.
    pub fn sizes(&mut self, kind: &str, matrix: &Matrix) {
        let counted = ask_plan(matrix, usize::MAX);
        for s in slack_rows(matrix.m) {
            let wanted = counted.and_then(|counts| reference::sizes(matrix, s, counts));
            self.count(format!("sizes, kind: {kind}"));
            self.count(match wanted {
                Ok(_) => "sizes, answers: yes".into(),
                Err(no) => format!("sizes, answers: refused {:02}", no.question),
            });
            self.ask_each("sizes", &wanted, (s, matrix), |backend| backend.sizes(matrix, s));
        }
    }

    /// What every backend that takes the input tells, beside what is wanted.
    fn ask_each<T: Debug + PartialEq>(
        &mut self,
        what: &str,
        wanted: &T,
        input: impl Debug,
        ask: impl Fn(&mut dyn Backend) -> Result<Option<T>, String>,
    ) {
        let mut faults = Vec::new();
        for backend in &mut self.backends {
            let name = backend.name();
            match ask(backend.as_mut()) {
                Ok(None) => {}
                Ok(Some(told)) if told == *wanted => {
                    *self.counts.entry(format!("{what} compared: {name}")).or_insert(0) += 1;
                }
                Ok(Some(told)) => faults.push(format!("{name}: {told:?}, wanted {wanted:?}: {input:?}")),
                Err(fault) => faults.push(format!("{name}: {fault}: {input:?}")),
            }
        }
        faults.into_iter().for_each(|fault| self.differ(fault));
    }
}

/// Up to so many rows, every number of slack rows is tried.
const FEW_ROWS: usize = 20;
/// Numbers of slack rows, or of rows, that are far too large.
pub const FAR: [usize; 5] = [1 << 16, 1 << 32, (1 << 32) + 1, 1 << 63, usize::MAX];

/// Numbers of slack rows up to m + 1 and far above; all up to m + 1 where rows are few.
fn slack_rows(m: usize) -> Vec<usize> {
    let few = if m <= FEW_ROWS { (0..=m + 1).collect() } else { vec![0, 1, m / 2, m - 1, m, m.saturating_add(1)] };
    [few, FAR.to_vec()].concat()
}

fn at_most(number: usize, bounds: &[usize]) -> String {
    match bounds.iter().find(|&&bound| number <= bound) {
        Some(bound) => format!("up to {bound:02}"),
        None => "later".into(),
    }
}

/// Every matrix of m rows and n columns with no empty row.
fn all_matrices(m: usize, n: usize) -> impl Iterator<Item = Matrix> {
    let choices = (1usize << n) - 1;
    (0..choices.pow(m as u32)).map(move |number| {
        let mut rest = number;
        let mut rows = Vec::new();
        for _ in 0..m {
            let bits = rest % choices + 1;
            rest /= choices;
            rows.push((0..n).filter(|column| bits >> column & 1 == 1).collect());
        }
        Matrix::from_rows(n, &rows)
    })
}

const MOST_MATRICES: usize = 70_000;

fn compare_plans(comparison: &mut Comparison, random: &mut Random, scale: usize) {
    for m in 1..=8 {
        for n in 1..=8u32 {
            let count = ((1usize << n) - 1).checked_pow(m as u32);
            if count.is_some_and(|count| count <= MOST_MATRICES) {
                all_matrices(m, n as usize).for_each(|matrix| comparison.plan("all small", &matrix));
            }
        }
    }
    for _ in 0..20 * scale {
        let (m, n, tenths) = (random.between(1, 20), random.between(1, 24), random.below(6));
        let matrix = generate::matrix(random, m, n, tenths);
        comparison.plan("random", &matrix);
        let wrong = generate::wrong(random).matrix;
        comparison.plan("with something wrong", &wrong);
    }
    for _ in 0..scale / 50 {
        let matrix = generate::large_matrix(random);
        comparison.plan("large", &matrix);
    }
}

/// One row and one column, with every edge number as value, b and c.
fn compare_one_by_one(comparison: &mut Comparison) {
    let pairs: Vec<(f64, f64)> =
        generate::EDGES.iter().flat_map(|&b| generate::EDGES.iter().map(move |&c| (b, c))).collect();
    for value in generate::EDGES {
        for lanes in pairs.as_chunks::<LANES>().0 {
            for (s, tolerance) in [(0, 1e-8), (0, 1e300), (1, 1e-8), (1, 1.0), (1, 1e300)] {
                let problem = Problem {
                    matrix: Matrix::from_rows(1, &[vec![0]]),
                    values: vec![value],
                    s,
                    b: lanes.map(|(b, _)| b).to_vec(),
                    c: lanes.map(|(_, c)| c).to_vec(),
                    tolerances: [1e300, 1e300, tolerance, tolerance].repeat(3),
                    limit: 30,
                    ..Problem::default()
                };
                comparison.solve("one by one, all edges", &problem);
            }
        }
    }
}

/// Two rows and two columns: every pattern with every choice of four values.
fn compare_two_by_two(comparison: &mut Comparison) {
    const VALUES: [f64; 4] = [0.0, 1.0, -1.0, 3.0];
    for matrix in all_matrices(2, 2) {
        for choice in 0..VALUES.len().pow(matrix.entries() as u32) {
            let value = |place: usize| VALUES[choice / VALUES.len().pow(place as u32) % VALUES.len()];
            for s in 0..=2 {
                let problem = Problem {
                    matrix: matrix.clone(),
                    values: (0..matrix.entries()).map(value).collect(),
                    s,
                    b: vec![4.0, 0.0, 1.0, 50.0, 6.0, 1.0, 0.0, 2.0],
                    c: vec![1.0, 0.0, 3.0, -1.0, 2.0, 1.0, 0.0, 5.0],
                    tolerances: vec![1e-8; 3 * LANES],
                    limit: 60,
                    ..Problem::default()
                };
                comparison.solve_around("two by two, all patterns and values", &problem);
            }
        }
    }
}

/// Sizes and limits at their largest, and one beyond.
fn compare_boundaries(comparison: &mut Comparison) {
    let (m, n, t) = (MOST_ROWS, MOST_COLUMNS, MOST_ENTRIES);
    for (m, n, t) in [(m, n, t), (m + 1, n, t), (m, n + 1, t), (m, n, t + 1), (m, 64, t), (1, n, n)] {
        let problem = generate::sized(m, n, t, 1e9);
        comparison.plan("largest sizes", &problem.matrix);
        comparison.solve("largest sizes", &problem);
    }
    for limit in [1, MOST_TESTS - 1, MOST_TESTS, MOST_TESTS + 1] {
        comparison.solve("largest limits", &generate::never_done().with_limit(limit));
    }
}

pub fn compare_all(comparison: &mut Comparison, seed: u64, scale: usize) {
    let random = &mut Random::new(seed);
    compare_plans(comparison, random, scale);
    compare_boundaries(comparison);
    compare_one_by_one(comparison);
    compare_two_by_two(comparison);
    for _ in 0..scale {
        generate::each_kind(random).iter().for_each(|(kind, problem)| comparison.solve_around(kind, problem));
        comparison.solve("something wrong", &generate::wrong(random));
    }
    for _ in 0..scale / 20 {
        let problem = generate::solvable(random, 16, 32);
        comparison.solve_around("middle sizes", &problem);
    }
    for _ in 0..scale / 100 {
        comparison.solve("large", &generate::large(random));
    }
}
