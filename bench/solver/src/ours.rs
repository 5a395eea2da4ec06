//! The static library, with memory lent once for all calls.

use ipm::library::{self, Answer, Lent, Sides, Sizes};

use crate::problem::{LANES, Problem};

pub struct Ours {
    matrix: library::Matrix,
    problem: Problem,
    output: Vec<f64>,
    prices: Vec<f64>,
    index: Vec<u32>,
    work: Vec<f64>,
    file: Vec<u8>,
}

impl Ours {
    /// Lends exactly W words, F numbers and the bytes of the plan's file.
    pub fn new(problem: &Problem, sizes: Sizes) -> Self {
        let matrix = &problem.matrix;
        Ours {
            matrix: library::Matrix {
                m: matrix.m,
                n: matrix.n,
                s: problem.s,
                offsets: matrix.offsets.clone(),
                columns: matrix.columns.clone(),
                values: problem.values.clone(),
            },
            problem: problem.clone(),
            output: vec![0.0; LANES * matrix.n],
            prices: vec![0.0; LANES * matrix.m],
            index: vec![0; sizes.words],
            work: vec![0.0; sizes.numbers],
            file: vec![0; library::file_bytes(sizes.words)],
        }
    }

    pub fn sizes(&self) -> Result<Sizes, Answer> {
        library::sizes(&self.matrix)
    }

    pub fn plan(&mut self) -> Answer {
        library::plan(&self.matrix, &mut self.index)
    }

    pub fn write_plan(&mut self) -> Answer {
        library::write_plan(&self.matrix, &mut self.index, &mut self.file)
    }

    /// Of the file that was written last, over what the index memory holds.
    pub fn read_plan(&mut self) -> Answer {
        library::read_plan(&self.matrix, &self.file, &mut self.index)
    }

    pub fn solve(&mut self, limit: usize) -> Answer {
        let Problem { b, c, tolerances, .. } = &self.problem;
        let sides = Sides { b, c, tolerances, limit, file: None };
        let Ours { output, prices, index, work, .. } = self;
        let lent = Lent { output, prices, index, work };
        library::solve(&self.matrix, sides, lent)
    }

    pub fn forget_plan(&mut self) {
        self.index.fill(0);
    }

    pub fn file(&self) -> &[u8] {
        &self.file
    }

    pub fn words(&self) -> &[u32] {
        &self.index
    }

    pub fn x(&self) -> &[f64] {
        &self.output
    }

    pub fn y(&self) -> &[f64] {
        &self.prices
    }
}
