//! Calls of the Rust: problems as it takes them, and what it gives.

use std::num::NonZeroUsize;

use ipm_common::SparseNormalCholeskyIndices;
use ipm_simd::{PathFollowingDirectSimdSolver, Tolerances, inside};
use nalgebra_sparse::CsrMatrix;
use wide::f64x4;

use crate::plan::Lists;
use crate::problem::{LANES, Matrix, Problem};

fn four(numbers: &[f64]) -> Vec<f64x4> {
    numbers.as_chunks::<LANES>().0.iter().map(|&group| f64x4::new(group)).collect()
}

pub fn sizes(words: &[u32]) -> Vec<usize> {
    words.iter().map(|&word| word as usize).collect()
}

pub fn solver(problem: &Problem) -> PathFollowingDirectSimdSolver {
    let matrix = &problem.matrix;
    let (offsets, columns) = (sizes(&matrix.offsets), sizes(&matrix.columns));
    let values = problem.values.clone();
    PathFollowingDirectSimdSolver::from_data(matrix.m, matrix.n, offsets, columns, values, problem.s)
}

/// All that the Rust's `solve` is given.
pub struct Sides {
    pub b: Vec<f64x4>,
    pub c: Vec<f64x4>,
    pub tolerances: Tolerances,
    pub limit: NonZeroUsize,
}

pub fn sides(problem: &Problem) -> Sides {
    let tolerances = four(&problem.tolerances);
    Sides {
        b: four(&problem.b),
        c: four(&problem.c),
        tolerances: Tolerances {
            primal_feasibility: tolerances[0],
            dual_feasibility: tolerances[1],
            optimality: tolerances[2],
        },
        limit: NonZeroUsize::new(problem.limit).expect("a limit above 0"),
    }
}

/// What the Rust's `solve` gives, x, and what it keeps in `path_buffers`, y.
pub struct Solved {
    pub x: Vec<f64>,
    pub y: Vec<f64>,
}

fn numbers(entries: &[f64x4]) -> Vec<f64> {
    entries.iter().flat_map(|entry| entry.to_array()).collect()
}

pub fn solve_with(solver: &mut PathFollowingDirectSimdSolver, problem: &Problem) -> Solved {
    let Sides { b, c, tolerances, limit } = sides(problem);
    let x = numbers(solver.solve(&b, &c, &tolerances, limit));
    let [_, _, y, _] = inside::numbers(solver);
    Solved { x, y: numbers(y) }
}

/// The thirteen lists of the Rust, then the transpose: offsets, rows and the places of the entries.
pub fn lists(matrix: &Matrix) -> Lists {
    let places = (0..matrix.entries() as u32).collect();
    let (offsets, columns) = (sizes(&matrix.offsets), sizes(&matrix.columns));
    let a = CsrMatrix::try_from_csr_data(matrix.m, matrix.n, offsets, columns, places).expect("a right matrix");
    let rust = SparseNormalCholeskyIndices::from_matrix(&a);
    let at = a.transpose();
    let words = |sizes: &[usize]| sizes.iter().map(|&size| size as u32).collect();
    [
        rust.anorm_indptr,
        rust.anorm_indptr_i,
        rust.anorm_indptr_j,
        rust.anorm_indices,
        rust.ldecomp_indptr,
        rust.ldecomp_indptr_i,
        rust.ldecomp_indptr_j,
        rust.lindptr,
        rust.ldiag_indptr,
        rust.lindices,
        rust.ltindptr,
        rust.ltindices,
        rust.ltmap,
        words(at.row_offsets()),
        words(at.col_indices()),
        at.values().to_vec(),
    ]
}
