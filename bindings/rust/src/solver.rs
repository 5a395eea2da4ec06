//! The solver: it sizes and owns the memory lent to the library.

use std::num::NonZeroUsize;

use crate::library::{self, Lent, Matrix, Sides};
use crate::{CENTRING, DAMPING, LANES, Refusal};

/// The question that follows 1 to 5.
const INDEX_MEMORY: u32 = 6;

/// What each lane's residuals have to stay below.
#[derive(Clone, Copy, Debug, PartialEq)]
pub struct Tolerances {
    pub primal_feasibility: [f64; LANES],
    pub dual_feasibility: [f64; LANES],
    pub optimality: [f64; LANES],
}

impl Default for Tolerances {
    fn default() -> Self {
        let each = [1e-8; LANES];
        Tolerances { primal_feasibility: each, dual_feasibility: each, optimality: each }
    }
}

impl Tolerances {
    fn listed(&self) -> [[f64; LANES]; 3] {
        [self.primal_feasibility, self.dual_feasibility, self.optimality]
    }
}

/// One lane's right side (a number for each row) and objective (a number for each column).
#[derive(Clone, Copy, Debug)]
pub struct Lane<'a> {
    pub b: &'a [f64],
    pub c: &'a [f64],
}

/// The four lanes' x and y.
#[derive(Clone, Copy, Debug, PartialEq)]
pub struct Solution<'a> {
    /// For each column the number of each lane.
    pub x: &'a [[f64; LANES]],
    /// For each row its price in each lane: how much more c·x the lane could have for one more unit of the row's b,
    /// while the same rows bind and to the tolerances. No inequality has a price below zero at the optimum.
    pub y: &'a [[f64; LANES]],
    /// The test, counted from 1, at which all lanes were done.
    pub test: usize,
}

impl<'a> Solution<'a> {
    /// One lane's x, column by column.
    pub fn lane(&self, lane: usize) -> impl Iterator<Item = f64> + 'a {
        self.x.iter().map(move |entry| entry[lane])
    }

    /// One lane's y, row by row.
    pub fn lane_prices(&self, lane: usize) -> impl Iterator<Item = f64> + 'a {
        self.y.iter().map(move |entry| entry[lane])
    }
}

/// A matrix with the memory that its solves need, and its plan's file if it has one.
#[derive(Clone, Debug)]
pub struct Solver {
    matrix: Matrix,
    file: Option<Vec<u8>>,
    output: Vec<[f64; LANES]>,
    prices: Vec<[f64; LANES]>,
    index: Vec<u32>,
    work: Vec<f64>,
}

impl Solver {
    /// Takes a matrix in compressed rows; its first `num_inequality_constraints` rows are inequalities. Refuses what
    /// any solve would refuse: questions 1 to 5 and 7.
    pub fn from_data(
        num_rows: usize,
        num_cols: usize,
        row_offsets: Vec<usize>,
        col_indices: Vec<usize>,
        values: Vec<f64>,
        num_inequality_constraints: usize,
    ) -> Result<Self, Refusal> {
        let matrix = Matrix {
            m: num_rows,
            n: num_cols,
            s: num_inequality_constraints,
            offsets: words(&row_offsets),
            columns: words(&col_indices),
            values,
        };
        ask_about_lists(&matrix)?;
        let sizes = library::sizes(&matrix).map_err(Refusal::of)?;
        let (output, prices) = (vec![[0.0; LANES]; matrix.n], vec![[0.0; LANES]; matrix.m]);
        let (index, work) = (vec![0; sizes.words], vec![0.0; sizes.numbers]);
        Ok(Solver { matrix, file: None, output, prices, index, work })
    }

    /// Every solve from here on is lent this file of the matrix's plan (see [`Plan`](crate::Plan)) and refuses it at
    /// questions 14 to 16, or has the answer that it has without one.
    pub fn with_file(self, file: Vec<u8>) -> Self {
        Solver { file: Some(file), ..self }
    }

    /// Solves the four lanes, with [`CENTRING`] and [`DAMPING`]. Entry k of `b` and `c` holds the four lanes of row or
    /// column k.
    pub fn solve(
        &mut self,
        b: &[[f64; LANES]],
        c: &[[f64; LANES]],
        tolerances: &Tolerances,
        max_iterations: NonZeroUsize,
    ) -> Result<Solution<'_>, Refusal> {
        self.solve_with(b, c, tolerances, max_iterations, CENTRING, DAMPING)
    }

    /// As `solve`, with a centring and a damping of the caller's, each above 0 and below 1.
    pub fn solve_with(
        &mut self,
        b: &[[f64; LANES]],
        c: &[[f64; LANES]],
        tolerances: &Tolerances,
        max_iterations: NonZeroUsize,
        centring: f64,
        damping: f64,
    ) -> Result<Solution<'_>, Refusal> {
        let listed = tolerances.listed();
        let sides = Sides {
            b: b.as_flattened(),
            c: c.as_flattened(),
            tolerances: listed.as_flattened(),
            limit: max_iterations.get(),
            file: self.file.as_deref(),
        };
        let lent = Lent {
            output: self.output.as_flattened_mut(),
            prices: self.prices.as_flattened_mut(),
            index: &mut self.index,
            work: &mut self.work,
        };
        let test = Refusal::unless_yes(library::solve_with(&self.matrix, sides, lent, centring, damping))?;
        Ok(Solution { x: &self.output, y: &self.prices, test })
    }

    /// Solves four problems given one by one.
    pub fn solve_lanes(
        &mut self,
        lanes: [Lane<'_>; LANES],
        tolerances: &Tolerances,
        max_iterations: NonZeroUsize,
    ) -> Result<Solution<'_>, Refusal> {
        let b = together(lanes.map(|lane| lane.b), self.matrix.m)?;
        let c = together(lanes.map(|lane| lane.c), self.matrix.n)?;
        self.solve(&b, &c, tolerances, max_iterations)
    }
}

/// Sizes as the library takes them. One that does not fit is beyond every limit, and so is the largest that does.
pub(crate) fn words(sizes: &[usize]) -> Vec<u32> {
    sizes.iter().map(|&size| u32::try_from(size).unwrap_or(u32::MAX)).collect()
}

/// For each entry its four lanes.
fn together(lanes: [&[f64]; LANES], length: usize) -> Result<Vec<[f64; LANES]>, Refusal> {
    if lanes.iter().any(|lane| lane.len() != length) {
        return Err(Refusal::Lengths);
    }
    Ok((0..length).map(|k| lanes.map(|lane| lane[k])).collect())
}

/// Questions 1 to 5, with the number of values, which `sizes` does not ask about. A solve that is lent no memory has a
/// no at 6 once these have a yes.
fn ask_about_lists(matrix: &Matrix) -> Result<(), Refusal> {
    let sides = Sides { b: &[], c: &[], tolerances: &[], limit: 1, file: None };
    let lent = Lent { output: &mut [], prices: &mut [], index: &mut [], work: &mut [] };
    let answer = library::solve(matrix, sides, lent);
    if answer.question == INDEX_MEMORY { Ok(()) } else { Err(Refusal::of(answer)) }
}
