//! What a matrix needs, and that it is neither more nor less than that.

#[path = "../../src/extern_c.rs"]
#[allow(dead_code)]
mod extern_c;

use ipm::LANES;
use ipm::library::{self, Answer, Costliest, Matrix, Sides, Sizes};

use super::{Memory, three_rows_matrix};

/// What a result holds that no call has written.
const BEFORE: u64 = 0xdead_beef_dead_beef;

const MOST_ROWS: usize = 256;
const MOST_COLUMNS: usize = 1024;
/// As many as every one of the most rows can hold.
const FULL: u32 = 64;

/// Sizes, and numbers of slack rows, that are far too large; some of them are right in their low bits.
const FAR: [usize; 4] = [(1 << 16) + 1, (1 << 32) + 1, (1 << 63) + 1, usize::MAX];

/// Rows of these columns, all of them inequalities. `sizes` asks for no values.
pub fn of_rows(n: usize, rows: &[&[u32]]) -> Matrix {
    let mut offsets = vec![0];
    offsets.extend(rows.iter().scan(0, |end, row| {
        *end += row.len() as u32;
        Some(*end)
    }));
    Matrix { m: rows.len(), n, s: rows.len(), offsets, columns: rows.concat(), values: Vec::new() }
}

/// E, S, D, W and F in this order.
fn sized([stored, shared, products, words, numbers]: [usize; 5]) -> Sizes {
    Sizes { stored, shared, products, words, numbers }
}

/// Four matrices and their sizes.
pub fn known() -> [(Matrix, Sizes); 4] {
    [
        (of_rows(1, &[&[0]]), sized([1, 1, 0, 19, 44])),
        (of_rows(2, &[&[0, 1], &[0], &[1]]), sized([6, 6, 4, 80, 124])),
        (of_rows(2, &[&[0], &[1], &[0, 1]]), sized([5, 6, 2, 71, 120])),
        (of_rows(3, &[&[0, 1], &[1, 2], &[0], &[2]]), sized([9, 9, 7, 118, 176])),
    ]
}

/// Matrices that are refused, each with its question and place.
fn refused() -> Vec<(Matrix, u32, u32)> {
    let right = || of_rows(2, &[&[0, 1], &[0], &[1]]);
    let bad_row = || of_rows(2, &[&[0, 1], &[1, 1], &[2]]);
    let mut all = vec![
        (Matrix { m: 0, offsets: vec![0], columns: vec![], ..right() }, 1, 0),
        (Matrix { m: MOST_ROWS + 1, ..right() }, 1, 0),
        (Matrix { n: 0, ..right() }, 2, 0),
        (Matrix { n: MOST_COLUMNS + 1, ..right() }, 2, 0),
        (Matrix { offsets: vec![], ..right() }, 3, 0),
        (Matrix { offsets: vec![0, 2, 3], ..right() }, 3, 0),
        (Matrix { offsets: vec![1, 2, 3, 4], ..right() }, 3, 0),
        (Matrix { offsets: vec![0, 3, 2, 4], ..right() }, 3, 0),
        (Matrix { offsets: vec![0, 2, 3, 5], ..right() }, 3, 0),
        (Matrix { columns: vec![], ..right() }, 3, 0),
        (of_rows(2, &[&[0], &[], &[]]), 4, 1),
        (of_rows(2, &[&[1, 1], &[], &[0]]), 4, 1),
        (bad_row(), 5, 1),
        (Matrix { s: 4, ..bad_row() }, 5, 1),
        (Matrix { s: usize::MAX, ..bad_row() }, 5, 1),
        (Matrix { s: 4, ..right() }, 7, 0),
    ];
    for far in FAR {
        all.push((Matrix { m: far, ..right() }, 1, 0));
        all.push((Matrix { n: far, ..right() }, 2, 0));
        all.push((Matrix { s: far, ..right() }, 7, 0));
    }
    all
}

/// What C sees: the answer, and the five results after it.
fn call_sizes(matrix: &Matrix) -> (u64, [u64; 5]) {
    let mut results = [BEFORE; 5];
    let [e, s, d, w, f] = &mut results;
    let (offsets, columns) = (&matrix.offsets, &matrix.columns);
    // Safety: both pointers come with the length of their own lists.
    let answer = unsafe {
        extern_c::ipm_sizes(
            matrix.m,
            matrix.n,
            matrix.s,
            offsets.as_ptr(),
            offsets.len(),
            columns.as_ptr(),
            columns.len(),
            e,
            s,
            d,
            w,
            f,
        )
    };
    (answer, results)
}

pub fn refused_at(question: u32, place: u32) -> Answer {
    Answer { length: 0, question, place, lane: 0 }
}

#[test]
fn known_matrices_have_their_sizes() {
    for (matrix, wanted) in known() {
        assert_eq!(library::sizes(&matrix), Ok(wanted), "{matrix:?}");
    }
}

#[test]
fn a_yes_has_w_as_its_place() {
    for (matrix, Sizes { stored, shared, products, words, numbers }) in known() {
        let results = [stored, shared, products, words, numbers].map(|count| count as u64);
        assert_eq!(call_sizes(&matrix), (results[3] << 8, results), "{matrix:?}");
    }
}

#[test]
fn slack_rows_count_in_f_alone() {
    for (matrix, all) in known() {
        for s in 0..=matrix.m {
            let numbers = all.numbers - 2 * LANES * (matrix.m - s);
            assert_eq!(library::sizes(&Matrix { s, ..matrix.clone() }), Ok(Sizes { numbers, ..all }), "s {s}");
        }
    }
}

#[test]
fn refusals_name_the_first_no_and_leave_every_result() {
    for (matrix, question, place) in refused() {
        assert_eq!(library::sizes(&matrix), Err(refused_at(question, place)), "{matrix:?}");
        assert_eq!(call_sizes(&matrix).1, [BEFORE; 5], "{matrix:?}");
    }
}

#[test]
fn just_w_words_and_f_numbers_are_enough() {
    for (matrix, Sizes { words, numbers, .. }) in known() {
        let matrix = Matrix { values: vec![1.0; matrix.columns.len()], ..matrix };
        let plan = |words| library::plan(&matrix, &mut vec![0; words]);
        assert_eq!(plan(words), Answer { length: 0, question: 0, place: words as u32, lane: 0 });
        assert_eq!(plan(words - 1), refused_at(6, 0));

        let (b, c) = (vec![1.0; LANES * matrix.m], vec![1.0; LANES * matrix.n]);
        let sides = Sides { b: &b, c: &c, tolerances: &[1e9; 3 * LANES], limit: 1, file: None };
        let solve = |words, numbers| {
            let mut memory = Memory::new(c.len(), b.len());
            memory.index.resize(words, 0);
            memory.work.resize(numbers, 0.0);
            memory.solve(&matrix, sides)
        };
        let accepted = Answer { length: b.len() as u16, question: 0, place: 1, lane: 0 };
        assert_eq!(solve(words, numbers), accepted);
        assert_eq!(solve(words - 1, numbers), refused_at(6, 0));
        assert_eq!(solve(words, numbers - 1), refused_at(9, 0));
    }
}

#[test]
fn the_costliest_has_known_counts() {
    for (m, stored, products) in [(1, 1, 0), (2, 3, 1), (3, 6, 4), (4, 10, 10), (MOST_ROWS, 32_896, 2_796_160)] {
        assert_eq!(library::costliest(m), Ok(Costliest { stored, products }), "{m} rows");
    }
}

#[test]
fn the_costliest_is_refused_at_1_and_leaves_both_results() {
    for m in [0, MOST_ROWS + 1].into_iter().chain(FAR) {
        assert_eq!(library::costliest(m), Err(refused_at(1, 0)), "{m} rows");
        let (mut e, mut d) = (BEFORE, BEFORE);
        extern_c::ipm_costliest(m, &mut e, &mut d);
        assert_eq!((e, d), (BEFORE, BEFORE), "{m} rows");
    }
}

#[test]
fn rows_of_one_column_are_the_costliest() {
    let shared_by_all = |m: usize, n: u32| {
        let row: Vec<u32> = (0..n).collect();
        of_rows(n as usize, &vec![row.as_slice(); m])
    };
    for (m, n) in [(1, 1), (2, 1), (3, 1), (16, 1), (MOST_ROWS, 1), (MOST_ROWS, FULL)] {
        let Sizes { stored, products, .. } = library::sizes(&shared_by_all(m, n)).expect("a right matrix");
        assert_eq!(library::costliest(m), Ok(Costliest { stored, products }), "{m} rows");
    }
}

#[test]
fn values_are_not_asked_about() {
    let matrix = three_rows_matrix();
    let wanted = library::sizes(&matrix);
    assert!(wanted.is_ok());
    for values in [0, 1, 5] {
        assert_eq!(library::sizes(&Matrix { values: vec![1.0; values], ..matrix.clone() }), wanted);
    }
}
