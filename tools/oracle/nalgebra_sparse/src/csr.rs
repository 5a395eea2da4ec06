/// A matrix as row offsets, columns and values.
#[derive(Clone, Debug)]
pub struct CsrMatrix<T> {
    columns_count: usize,
    row_offsets: Vec<usize>,
    col_indices: Vec<usize>,
    values: Vec<T>,
}

/// Why three lists are no matrix.
#[derive(Clone, Copy, Debug, PartialEq, Eq)]
pub enum SparseFormatError {
    Offsets,
    Columns,
    Values,
}

/// The part of the column list that belongs to one row.
pub struct CsrRow<'a> {
    columns: &'a [usize],
}

impl<'a> CsrRow<'a> {
    pub fn col_indices(&self) -> &'a [usize] {
        self.columns
    }
}

impl<T> CsrMatrix<T> {
    pub fn try_from_csr_data(
        num_rows: usize,
        num_cols: usize,
        row_offsets: Vec<usize>,
        col_indices: Vec<usize>,
        values: Vec<T>,
    ) -> Result<Self, SparseFormatError> {
        if !offsets_right(num_rows, &row_offsets, col_indices.len()) {
            return Err(SparseFormatError::Offsets);
        }
        let rows = row_offsets.windows(2).map(|ends| &col_indices[ends[0]..ends[1]]);
        if !rows.into_iter().all(|row| columns_right(num_cols, row)) {
            return Err(SparseFormatError::Columns);
        }
        if values.len() != col_indices.len() {
            return Err(SparseFormatError::Values);
        }
        Ok(Self { columns_count: num_cols, row_offsets, col_indices, values })
    }

    pub fn nrows(&self) -> usize {
        self.row_offsets.len() - 1
    }

    pub fn ncols(&self) -> usize {
        self.columns_count
    }

    pub fn row_offsets(&self) -> &[usize] {
        &self.row_offsets
    }

    pub fn col_indices(&self) -> &[usize] {
        &self.col_indices
    }

    pub fn values(&self) -> &[T] {
        &self.values
    }

    pub fn get_row(&self, row: usize) -> Option<CsrRow<'_>> {
        let first = *self.row_offsets.get(row)?;
        let end = *self.row_offsets.get(row + 1)?;
        Some(CsrRow { columns: &self.col_indices[first..end] })
    }
}

impl<T: Clone> CsrMatrix<T> {
    /// By counting: how many entries each column has, then each entry to its column, rows rising.
    pub fn transpose(&self) -> Self {
        let mut row_offsets = vec![0; self.columns_count + 1];
        for &column in &self.col_indices {
            row_offsets[column + 1] += 1;
        }
        for column in 0..self.columns_count {
            row_offsets[column + 1] += row_offsets[column];
        }
        let mut next = row_offsets.clone();
        let mut col_indices = vec![0; self.col_indices.len()];
        let mut values = self.values.clone();
        for row in 0..self.nrows() {
            for place in self.row_offsets[row]..self.row_offsets[row + 1] {
                let to = &mut next[self.col_indices[place]];
                col_indices[*to] = row;
                values[*to] = self.values[place].clone();
                *to += 1;
            }
        }
        Self { columns_count: self.nrows(), row_offsets, col_indices, values }
    }
}

fn offsets_right(num_rows: usize, offsets: &[usize], entries: usize) -> bool {
    offsets.len() == num_rows + 1
        && offsets[0] == 0
        && offsets[num_rows] == entries
        && offsets.windows(2).all(|ends| ends[0] <= ends[1])
}

fn columns_right(num_cols: usize, row: &[usize]) -> bool {
    row.windows(2).all(|pair| pair[0] < pair[1]) && row.iter().all(|&column| column < num_cols)
}
