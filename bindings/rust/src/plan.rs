//! A plan that is carried as a file.

use crate::Refusal;
use crate::library::{self, Answer, Matrix};
use crate::solver::words;

/// A matrix's plan: the sixteen lists of its factor. They depend on where the entries of the matrix stand alone.
///
/// Its file goes to another machine, whose `from_bytes` gives the same lists or says what is wrong with the file.
#[derive(Clone, Debug)]
pub struct Plan {
    matrix: Matrix,
    index: Vec<u32>,
}

impl Plan {
    /// Plans a matrix in compressed rows, or refuses it: questions 1 to 5.
    pub fn from_data(
        num_rows: usize,
        num_cols: usize,
        row_offsets: Vec<usize>,
        col_indices: Vec<usize>,
    ) -> Result<Self, Refusal> {
        let matrix = pattern(num_rows, num_cols, &row_offsets, &col_indices);
        Plan::filled(matrix, library::plan)
    }

    /// The plan of a matrix in compressed rows as a file has it: questions 1 to 5 about the matrix, 14 to 16 about the
    /// file, which is whole and has not a byte more.
    pub fn from_bytes(
        num_rows: usize,
        num_cols: usize,
        row_offsets: Vec<usize>,
        col_indices: Vec<usize>,
        file: &[u8],
    ) -> Result<Self, Refusal> {
        let matrix = pattern(num_rows, num_cols, &row_offsets, &col_indices);
        Plan::filled(matrix, |matrix, index| library::read_plan(matrix, file, index))
    }

    /// The plan's file, with no note in it.
    pub fn to_bytes(&self) -> Vec<u8> {
        let mut file = vec![0; library::file_bytes(self.index.len())];
        let answer = library::write_plan(&self.matrix, &mut self.index.clone(), &mut file);
        assert_eq!(Refusal::unless_yes(answer), Ok(file.len()), "a matrix that has a plan has a file");
        file
    }

    /// The sixteen lists, one after the other.
    pub fn words(&self) -> &[u32] {
        &self.index
    }

    /// Lends just W words to a call that leaves the plan in them.
    fn filled(matrix: Matrix, call: impl FnOnce(&Matrix, &mut [u32]) -> Answer) -> Result<Self, Refusal> {
        let sizes = library::sizes(&matrix).map_err(Refusal::of)?;
        let mut index = vec![0; sizes.words];
        Refusal::unless_yes(call(&matrix, &mut index))?;
        Ok(Plan { matrix, index })
    }
}

/// A matrix without values; no row has to be an inequality.
fn pattern(m: usize, n: usize, row_offsets: &[usize], col_indices: &[usize]) -> Matrix {
    Matrix { m, n, s: 0, offsets: words(row_offsets), columns: words(col_indices), values: Vec::new() }
}
