//! Document 01's questions 1 to 10 in order, and then 13: all that is asked before the tests.

use crate::plan::{Counts, counts, plan_words, work_numbers};
use crate::problem::{Fractions, LANES, MOST_COLUMNS, MOST_ENTRIES, MOST_ROWS, MOST_TESTS, Matrix, Problem, Refusal};

/// The lengths of the memory lent beside the problem.
#[derive(Clone, Copy, Debug, PartialEq, Eq)]
pub struct Room {
    pub output: usize,
    pub prices: usize,
    pub index: usize,
    pub work: usize,
}

impl Room {
    /// More than enough for any size, and the right outputs.
    pub fn ample(problem: &Problem) -> Self {
        let Matrix { m, n, .. } = problem.matrix;
        Room { output: LANES * n, prices: LANES * m, index: usize::MAX, work: usize::MAX }
    }
}

fn no_unless(yes: bool, question: usize) -> Result<(), Refusal> {
    if yes { Ok(()) } else { Err(Refusal::at(question, 0)) }
}

fn no_at(place: Option<usize>, question: usize) -> Result<(), Refusal> {
    place.map_or(Ok(()), |place| Err(Refusal::at(question, place)))
}

fn offsets_right(matrix: &Matrix) -> bool {
    let offsets = &matrix.offsets;
    offsets.len() == matrix.m + 1
        && offsets[0] == 0
        && offsets.windows(2).all(|ends| ends[0] <= ends[1])
        && offsets[matrix.m] as usize == matrix.entries()
        && matrix.entries() <= MOST_ENTRIES
}

fn row_right(matrix: &Matrix, i: usize) -> bool {
    let row = matrix.row(i);
    row.windows(2).all(|pair| pair[0] < pair[1]) && row.iter().all(|&column| (column as usize) < matrix.n)
}

/// Question 1.
pub fn ask_rows(m: usize) -> Result<(), Refusal> {
    no_unless((1..=MOST_ROWS).contains(&m), 1)
}

/// Questions 1 to 5; `values` is how many values were given, for a solve.
pub fn ask_matrix(matrix: &Matrix, values: Option<usize>) -> Result<(), Refusal> {
    ask_rows(matrix.m)?;
    no_unless((1..=MOST_COLUMNS).contains(&matrix.n), 2)?;
    no_unless(offsets_right(matrix) && values.is_none_or(|count| count == matrix.entries()), 3)?;
    no_at((0..matrix.m).find(|&i| matrix.row(i).is_empty()), 4)?;
    no_at((0..matrix.m).find(|&i| !row_right(matrix, i)), 5)
}

/// Questions 1 to 6.
pub fn ask_plan(matrix: &Matrix, index: usize) -> Result<Counts, Refusal> {
    ask_matrix(matrix, None)?;
    let counts = counts(matrix);
    no_unless(index >= plan_words(matrix, counts), 6)?;
    Ok(counts)
}

/// Question 7.
pub fn ask_slack_rows(matrix: &Matrix, s: usize) -> Result<(), Refusal> {
    no_unless(s <= matrix.m, 7)
}

/// Above 0 and below 1. NaN is neither.
fn is_proper(number: f64) -> bool {
    0.0 < number && number < 1.0
}

/// Questions 1 to 10, then 13.
pub fn ask_solve(problem: &Problem, room: Room) -> Result<(), Refusal> {
    let matrix = &problem.matrix;
    ask_matrix(matrix, Some(problem.values.len()))?;
    let counts = ask_plan(matrix, room.index)?;
    ask_slack_rows(matrix, problem.s)?;
    let (of_rows, of_columns) = (LANES * matrix.m, LANES * matrix.n);
    let lengths = [problem.b.len(), problem.c.len(), problem.tolerances.len(), room.output, room.prices];
    no_unless(lengths == [of_rows, of_columns, 3 * LANES, of_columns, of_rows], 8)?;
    no_unless(room.work >= work_numbers(matrix, problem.s, counts), 9)?;
    no_unless((1..=MOST_TESTS).contains(&problem.limit), 10)?;
    let Fractions { centring, damping } = problem.fractions;
    no_unless(is_proper(centring) && is_proper(damping), 13)
}
