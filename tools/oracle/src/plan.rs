//! Pattern, counts and the sixteen lists, from document 01's sentences alone.

use crate::problem::{LANES, Matrix, Refusal};

/// The names of the sixteen lists, in order.
pub const NAMES: [&str; 16] = [
    "anorm_indptr",
    "anorm_indptr_i",
    "anorm_indptr_j",
    "anorm_indices",
    "ldecomp_indptr",
    "ldecomp_indptr_i",
    "ldecomp_indptr_j",
    "lindptr",
    "ldiag_indptr",
    "lindices",
    "ltindptr",
    "ltindices",
    "ltmap",
    "transpose_offsets",
    "transpose_rows",
    "transpose_places",
];

pub type Lists = [Vec<u32>; 16];

/// E, S and D.
#[derive(Clone, Copy, Debug, PartialEq, Eq)]
pub struct Counts {
    pub stored: usize,
    pub shared: usize,
    pub products: usize,
}

/// E, S, D, W and F.
#[derive(Clone, Copy, Debug, PartialEq, Eq)]
pub struct Sizes {
    pub counts: Counts,
    pub words: usize,
    pub numbers: usize,
}

/// What a matrix needs, or a no.
pub type Measured = Result<Sizes, Refusal>;

/// The places of an entry of row i and one of row j in each column that both hold, columns rising.
pub fn shared_places(matrix: &Matrix, i: usize, j: usize) -> Vec<(usize, usize)> {
    let find = |row: usize, column: u32| matrix.places(row).find(|&place| matrix.columns[place] == column);
    let entries = matrix.places(i);
    entries.filter_map(|place| find(j, matrix.columns[place]).map(|other| (place, other))).collect()
}

/// Which pairs (i, j) of rows, j at most i, share a column.
pub fn neighbours(matrix: &Matrix) -> Vec<Vec<bool>> {
    let mut held = vec![vec![false; matrix.n]; matrix.m];
    for (i, marks) in held.iter_mut().enumerate() {
        matrix.row(i).iter().for_each(|&column| marks[column as usize] = true);
    }
    let meets = |i: usize, j: usize| matrix.row(i).iter().any(|&column| held[j][column as usize]);
    (0..matrix.m).map(|i| (0..=i).map(|j| meets(i, j)).collect()).collect()
}

/// The stored pairs (i, j), j at most i: i = j, neighbours, or some k below j with (i, k) and (j, k) stored.
pub fn pattern(matrix: &Matrix) -> Vec<Vec<bool>> {
    let mut stored = neighbours(matrix);
    for i in 0..matrix.m {
        for j in 0..=i {
            stored[i][j] = i == j || stored[i][j] || (0..j).any(|k| stored[i][k] && stored[j][k]);
        }
    }
    stored
}

/// For each stored pair, rows then columns rising, the k below j with (i, k) and (j, k) stored.
fn products(stored: &[Vec<bool>]) -> Vec<(usize, usize, Vec<usize>)> {
    let mut all = Vec::new();
    for i in 0..stored.len() {
        for j in (0..=i).filter(|&j| stored[i][j]) {
            all.push((i, j, (0..j).filter(|&k| stored[i][k] && stored[j][k]).collect()));
        }
    }
    all
}

pub fn counts(matrix: &Matrix) -> Counts {
    let pairs = products(&pattern(matrix));
    Counts {
        stored: pairs.len(),
        shared: pairs.iter().map(|(i, j, _)| shared_places(matrix, *i, *j).len()).sum(),
        products: pairs.iter().map(|(_, _, rows)| rows.len()).sum(),
    }
}

/// E, S and D as the lengths of the lists that have a word for each.
pub fn listed_counts(lists: &Lists) -> Counts {
    let length = |name: &str| {
        let list = NAMES.iter().position(|&other| other == name).expect("a list of this name");
        lists[list].len()
    };
    Counts { stored: length("lindices"), shared: length("anorm_indices"), products: length("ldecomp_indptr_i") }
}

/// W, the words that a plan takes.
pub fn plan_words(matrix: &Matrix, counts: Counts) -> usize {
    let factor = 5 * counts.stored + 3 * counts.shared + 2 * counts.products;
    factor + 3 * matrix.m + matrix.n + 2 * matrix.entries() + 5
}

/// F, the numbers that a solve works in.
pub fn work_numbers(matrix: &Matrix, s: usize, counts: Counts) -> usize {
    LANES * (5 * matrix.n + 3 * matrix.m + 2 * s + counts.stored)
}

fn words(numbers: impl IntoIterator<Item = usize>) -> Vec<u32> {
    numbers.into_iter().map(|number| number as u32).collect()
}

/// 0, then the running totals of the sizes.
fn running(sizes: impl IntoIterator<Item = usize>) -> Vec<u32> {
    let mut totals = vec![0];
    for size in sizes {
        totals.push(totals[totals.len() - 1] + size as u32);
    }
    totals
}

/// Row lists turned round: for each column below `width` the (row, place) of its entries, rows rising.
fn by_column(columns_of_rows: &[Vec<usize>], width: usize) -> Vec<Vec<(usize, usize)>> {
    let mut turned = vec![Vec::new(); width];
    let entries = columns_of_rows.iter().enumerate().flat_map(|(row, columns)| columns.iter().map(move |&c| (row, c)));
    for (place, (row, column)) in entries.enumerate() {
        turned[column].push((row, place));
    }
    turned
}

fn transposed(columns_of_rows: &[Vec<usize>], width: usize) -> [Vec<u32>; 3] {
    let turned = by_column(columns_of_rows, width);
    let entries = || turned.iter().flatten().copied();
    [
        running(turned.iter().map(Vec::len)),
        words(entries().map(|(row, _)| row)),
        words(entries().map(|(_, place)| place)),
    ]
}

/// The sixteen lists of a matrix that passes questions 1 to 5.
pub fn lists(matrix: &Matrix) -> Lists {
    let stored = pattern(matrix);
    let pairs = products(&stored);
    let shared: Vec<_> = pairs.iter().map(|(i, j, _)| shared_places(matrix, *i, *j)).collect();
    let factor_rows: Vec<Vec<usize>> = stored.iter().map(|row| (0..row.len()).filter(|&j| row[j]).collect()).collect();
    let starts = running(factor_rows.iter().map(Vec::len));
    let place = |i: usize, k: usize| starts[i] as usize + stored[i][..k].iter().filter(|&&yes| yes).count();
    let each = || pairs.iter().flat_map(|(i, j, ks)| ks.iter().map(move |&k| (*i, *j, k)));
    let matrix_rows: Vec<Vec<usize>> =
        (0..matrix.m).map(|i| matrix.row(i).iter().map(|&column| column as usize).collect()).collect();
    let [lt_starts, lt_rows, lt_places] = transposed(&factor_rows, matrix.m);
    let [at_starts, at_rows, at_places] = transposed(&matrix_rows, matrix.n);
    [
        running(shared.iter().map(Vec::len)),
        words(shared.iter().flatten().map(|&(of_i, _)| of_i)),
        words(shared.iter().flatten().map(|&(_, of_j)| of_j)),
        shared.iter().flatten().map(|&(of_i, _)| matrix.columns[of_i]).collect(),
        running(pairs.iter().map(|(_, _, ks)| ks.len())),
        words(each().map(|(i, _, k)| place(i, k))),
        words(each().map(|(_, j, k)| place(j, k))),
        starts.clone(),
        words((0..matrix.m).map(|i| place(i, i))),
        words(factor_rows.iter().flatten().copied()),
        lt_starts,
        lt_rows,
        lt_places,
        at_starts,
        at_rows,
        at_places,
    ]
}
