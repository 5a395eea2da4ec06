//! Document 01's one-lane machine, written from the paper alone: one lane at a time, dense, the factor by the chain
//! rule. Nothing here reads the Rust, its lists or its order of work.

use crate::plan::{neighbours, shared_places};
use crate::problem::{Fractions, Problem, lane, settled_bits};

pub const START: f64 = 1000.0;

/// What a lane's test yields.
#[derive(Clone, Copy, Debug, PartialEq, Eq)]
pub enum Verdict {
    Spoilt,
    Done,
    Steps,
}

/// A row or column: where each entry is, and a number.
type Entries = Vec<(usize, f64)>;

/// The matrix as the machine reads it, the same for every lane.
pub struct Shape {
    m: usize,
    n: usize,
    s: usize,
    /// (column, value) of each row's entries, columns rising.
    rows: Vec<Entries>,
    /// (row, value) of each column's entries, rows rising.
    columns: Vec<Entries>,
    /// For each pair (i, j) of the factor, rows then columns rising: the products a_ie a_je with their columns.
    factor: Vec<Vec<(usize, Entries)>>,
    /// Whether the factor has (i, j).
    has: Vec<Vec<bool>>,
}

/// The rows that have a chain to j: from j through rows below j.
fn chained_to(near: &[Vec<bool>], j: usize) -> Vec<bool> {
    let m = near.len();
    let linked = |p: usize, q: usize| near[p.max(q)][p.min(q)];
    let mut reached = vec![false; m];
    let mut waiting = vec![j];
    while let Some(row) = waiting.pop() {
        for next in (0..m).filter(|&next| linked(row, next)) {
            if !reached[next] {
                reached[next] = true;
                if next < j {
                    waiting.push(next);
                }
            }
        }
    }
    reached
}

/// Whether the factor has (i, j), j at most i: i = j, or a chain from i to j.
pub fn factor_pattern(problem: &Problem) -> Vec<Vec<bool>> {
    let near = neighbours(&problem.matrix);
    let chained: Vec<Vec<bool>> = (0..problem.matrix.m).map(|j| chained_to(&near, j)).collect();
    (0..problem.matrix.m).map(|i| (0..=i).map(|j| i == j || chained[j][i]).collect()).collect()
}

impl Shape {
    pub fn new(problem: &Problem) -> Self {
        let matrix = &problem.matrix;
        let mut rows = vec![Vec::new(); matrix.m];
        let mut columns = vec![Vec::new(); matrix.n];
        for (i, row) in rows.iter_mut().enumerate() {
            for place in matrix.places(i) {
                let (e, a) = (matrix.columns[place] as usize, problem.values[place]);
                row.push((e, a));
                columns[e].push((i, a));
            }
        }
        let has = factor_pattern(problem);
        let product = |(p, q): (usize, usize)| (matrix.columns[p] as usize, problem.values[p] * problem.values[q]);
        let entry = |i, j| (j, shared_places(matrix, i, j).into_iter().map(product).collect());
        let factor_row = |i: usize| (0..=i).filter(|&j| has[i][j]).map(|j| entry(i, j)).collect();
        let factor = (0..matrix.m).map(factor_row).collect();
        Shape { m: matrix.m, n: matrix.n, s: problem.s, rows, columns, factor, has }
    }
}

/// One machine's numbers, and whether it is spoilt for good.
#[derive(Clone)]
pub struct Machine<'a> {
    shape: &'a Shape,
    b: Vec<f64>,
    c: Vec<f64>,
    tolerances: [f64; 3],
    fractions: Fractions,
    pub x: Vec<f64>,
    z: Vec<f64>,
    pub y: Vec<f64>,
    w: Vec<f64>,
    spoilt: bool,
}

/// What a step adds to each number, before its length.
struct Change {
    x: Vec<f64>,
    z: Vec<f64>,
    y: Vec<f64>,
    w: Vec<f64>,
}

impl Change {
    fn is_finite(&self) -> bool {
        [&self.x, &self.z, &self.y, &self.w].into_iter().flatten().all(|number| number.is_finite())
    }
}

fn larger(p: f64, q: f64) -> f64 {
    if q > p { q } else { p }
}

fn smaller(p: f64, q: f64) -> f64 {
    if q < p { q } else { p }
}

/// A sum from +0.0, index rising.
fn sum(terms: impl Iterator<Item = f64>) -> f64 {
    terms.fold(0.0, |total, term| total + term)
}

fn root_of_squares(numbers: &[f64]) -> f64 {
    sum(numbers.iter().map(|p| p * p)).sqrt()
}

fn products(entries: &[(usize, f64)], numbers: &[f64]) -> f64 {
    sum(entries.iter().map(|&(k, a)| a * numbers[k]))
}

impl<'a> Machine<'a> {
    pub fn new(shape: &'a Shape, problem: &Problem, l: usize) -> Self {
        let tolerances = lane(&problem.tolerances, l);
        Machine {
            shape,
            b: lane(&problem.b, l),
            c: lane(&problem.c, l),
            tolerances: [tolerances[0], tolerances[1], tolerances[2]],
            fractions: problem.fractions,
            x: vec![START; shape.n],
            z: vec![START; shape.n],
            y: vec![START; shape.m],
            w: vec![START; shape.s],
            spoilt: false,
        }
    }

    fn primal_measure(&self) -> f64 {
        let residual = |i: usize| {
            let start = if i < self.shape.s { self.b[i] - self.w[i] } else { self.b[i] };
            self.shape.rows[i].iter().fold(start, |rest, &(e, a)| rest - a * self.x[e])
        };
        let residuals: Vec<f64> = (0..self.shape.m).map(residual).collect();
        root_of_squares(&residuals) / (1.0 + root_of_squares(&self.x))
    }

    fn dual_measure(&self) -> f64 {
        let residual = |e: usize| {
            let start = self.z[e] + self.c[e];
            self.shape.columns[e].iter().fold(start, |rest, &(i, a)| rest - a * self.y[i])
        };
        let residuals: Vec<f64> = (0..self.shape.n).map(residual).collect();
        root_of_squares(&residuals) / (1.0 + root_of_squares(&self.y))
    }

    fn gap(&self) -> f64 {
        let columns = sum((0..self.shape.n).map(|e| self.z[e] * self.x[e]));
        columns + sum((0..self.shape.s).map(|i| self.w[i] * self.y[i]))
    }

    fn mu(&self) -> f64 {
        self.fractions.centring * self.gap() / (self.shape.n + self.shape.s) as f64
    }

    /// The test: what it yields, from now on spoilt if it is spoilt.
    pub fn test(&mut self) -> Verdict {
        let relative = self.gap() / (1.0 + root_of_squares(&self.x) + root_of_squares(&self.y));
        self.spoilt |= relative.is_nan();
        let measures = [self.primal_measure(), self.dual_measure(), relative];
        if self.spoilt {
            Verdict::Spoilt
        } else if (0..3).all(|k| measures[k] < self.tolerances[k]) {
            Verdict::Done
        } else {
            Verdict::Steps
        }
    }

    fn right_side(&self, mu: f64, aty: &[f64]) -> Vec<f64> {
        let u: Vec<f64> =
            (0..self.shape.n).map(|e| self.x[e] * (self.c[e] - aty[e] + mu / self.x[e]) / self.z[e]).collect();
        let entry = |i: usize| {
            let start = if i < self.shape.s { mu / self.y[i] } else { 0.0 };
            let v = self.shape.rows[i].iter().fold(start, |total, &(e, a)| total + a * self.x[e]);
            -((self.b[i] - v) - products(&self.shape.rows[i], &u))
        };
        (0..self.shape.m).map(entry).collect()
    }

    fn factor(&self) -> Vec<Vec<f64>> {
        let shape = self.shape;
        let mut l = vec![vec![0.0; shape.m]; shape.m];
        for i in 0..shape.m {
            for (j, shared) in &shape.factor[i] {
                let j = *j;
                let mut entry = if i == j && i < shape.s { self.w[i] / self.y[i] } else { 0.0 };
                for &(e, product) in shared {
                    entry += product * self.x[e] / self.z[e];
                }
                for k in (0..j).filter(|&k| shape.has[i][k] && shape.has[j][k]) {
                    entry -= l[i][k] * l[j][k];
                }
                l[i][j] = if i == j { entry.abs().sqrt() } else { entry / l[j][j] };
            }
        }
        l
    }

    fn solved(&self, l: &[Vec<f64>], right: &[f64]) -> Vec<f64> {
        let shape = self.shape;
        let mut dy = right.to_vec();
        for i in 0..shape.m {
            for j in (0..i).filter(|&j| shape.has[i][j]) {
                dy[i] -= dy[j] * l[i][j];
            }
            dy[i] /= l[i][i];
        }
        for i in (0..shape.m).rev() {
            for j in (i + 1..shape.m).filter(|&j| shape.has[j][i]) {
                dy[i] -= dy[j] * l[j][i];
            }
            dy[i] /= l[i][i];
        }
        dy
    }

    fn change(&self) -> Change {
        let (shape, mu) = (self.shape, self.mu());
        let aty: Vec<f64> = shape.columns.iter().map(|column| products(column, &self.y)).collect();
        let dy = self.solved(&self.factor(), &self.right_side(mu, &aty));
        let dx: Vec<f64> = (0..shape.n)
            .map(|e| {
                let atdy = products(&shape.columns[e], &dy);
                (self.c[e] - aty[e] - atdy + mu / self.x[e]) * self.x[e] / self.z[e]
            })
            .collect();
        let dz = (0..shape.n).map(|e| (mu - self.z[e] * dx[e]) / self.x[e] - self.z[e]).collect();
        let dw = (0..shape.s).map(|i| (mu - self.w[i] * dy[i]) / self.y[i] - self.w[i]).collect();
        Change { x: dx, z: dz, y: dy, w: dw }
    }

    fn step_length(&self, change: &Change) -> f64 {
        let columns = (0..self.shape.n)
            .fold(0.0, |theta, e| larger(larger(theta, -change.x[e] / self.x[e]), -change.z[e] / self.z[e]));
        let slacks = (0..self.shape.s)
            .fold(0.0, |theta, i| larger(larger(theta, -change.w[i] / self.w[i]), -change.y[i] / self.y[i]));
        smaller(self.fractions.damping / larger(columns, slacks), 1.0)
    }

    /// x, z, y and w as bits, unless it is spoilt: then they are free.
    pub fn numbers(&self) -> Option<Vec<u64>> {
        let all = [&self.x, &self.z, &self.y, &self.w].into_iter().flatten();
        (!self.spoilt).then(|| all.copied().map(settled_bits).collect())
    }

    /// What follows a test that steps.
    pub fn step(&mut self) {
        let change = self.change();
        let h = self.step_length(&change);
        let moves =
            [(&mut self.x, &change.x), (&mut self.z, &change.z), (&mut self.y, &change.y), (&mut self.w, &change.w)];
        for (numbers, changes) in moves {
            for (p, dp) in numbers.iter_mut().zip(changes) {
                *p = 1.0 * *p + h * dp;
            }
        }
    }

    /// What follows a test that finds the machine done: nothing moves, but a step that is not finite spoils it.
    /// Says whether it did.
    pub fn wait(&mut self) -> bool {
        self.spoilt = !self.change().is_finite();
        self.spoilt
    }
}
