//! What only the static library can be asked about memory: lists that no record can say, and the costliest pattern.

use crate::compare::{Comparison, FAR};
use crate::generate;
use crate::library::{self, Most};
use crate::plan::counts;
use crate::problem::{MOST_COLUMNS, MOST_ROWS, Matrix, Refusal};
use crate::questions::ask_rows;
use crate::random::Random;
use crate::rooms::vary;

/// Up to so many rows, rows of one column are counted by the rule of the pattern too.
const COUNTED_ROWS: usize = 40;

/// The most rows, columns and entries of lists of which every one is tried.
const SMALL_ROWS: usize = 3;
const SMALL_COLUMNS: usize = 2;
const SMALL_ENTRIES: usize = 3;

/// Numbers at the ends of 32 bits, for an offset or a column.
const ENDS: [u32; 4] = [0, 1 << 31, u32::MAX - 1, u32::MAX];

/// All pairs (i, j), j at most i, of m rows, counted one by one: each has the j rows below j as its k.
fn full_counts(m: usize) -> Result<Most, Refusal> {
    ask_rows(m)?;
    let mut most = Most { stored: 0, products: 0 };
    for i in 0..m {
        for j in 0..=i {
            most.stored += 1;
            most.products += j;
        }
    }
    Ok(most)
}

fn compare_costliest(comparison: &mut Comparison, kind: &str, m: usize) {
    let wanted = full_counts(m);
    comparison.count(format!("costliest, kind: {kind}"));
    match library::costliest(m) {
        Ok(told) if told == wanted => {}
        other => comparison.differ(format!("the costliest of {m} rows: {other:?}, wanted {wanted:?}")),
    }
}

/// Rows that share one column, counted by the rule.
fn compare_one_column(comparison: &mut Comparison, m: usize) {
    let counted = counts(&Matrix::from_rows(1, &vec![vec![0]; m]));
    let most = Most { stored: counted.stored, products: counted.products };
    comparison.count("costliest, kind: counted by the rule");
    if library::costliest(m) != Ok(Ok(most)) {
        comparison.differ(format!("the costliest of {m} rows is not {most:?}"));
    }
}

/// Every list of so many numbers from 0 to `most`.
fn all_lists(length: usize, most: usize) -> impl Iterator<Item = Vec<u32>> {
    let choices = most as u32 + 1;
    let number = move |list: u32, place: usize| list / choices.pow(place as u32) % choices;
    (0..choices.pow(length as u32)).map(move |list| (0..length).map(|place| number(list, place)).collect())
}

/// Every offsets and columns with small numbers: empty rows, columns out of order or too large, offsets of any kind.
fn compare_small_lists(comparison: &mut Comparison, m: usize, n: usize) {
    for offsets in all_lists(m + 1, SMALL_ENTRIES) {
        for entries in 0..=SMALL_ENTRIES {
            for columns in all_lists(entries, SMALL_COLUMNS) {
                comparison.sizes("every small list", &Matrix { m, n, offsets: offsets.clone(), columns });
            }
        }
    }
}

/// Sizes beyond their limits, one and both, over lists that are right for another size.
fn compare_limits(comparison: &mut Comparison, matrix: &Matrix) {
    let rows = [matrix.m, 0, MOST_ROWS + 1].into_iter().chain(FAR);
    for m in rows {
        for n in [matrix.n, 0, MOST_COLUMNS + 1].into_iter().chain(FAR) {
            comparison.sizes("sizes beyond their limits", &Matrix { m, n, ..matrix.clone() });
        }
    }
}

/// Lists of other lengths, right or wrong before.
fn compare_lengths(comparison: &mut Comparison, random: &mut Random) {
    let mut problem = if random.once_in(6) { generate::wrong(random) } else { generate::solvable(random, 6, 6) };
    vary(random, &mut problem);
    comparison.sizes("lengths varied", &problem.matrix);
}

/// One offset and one column anywhere, at the ends of 32 bits or small.
fn compare_numbers(comparison: &mut Comparison, random: &mut Random) {
    let mut matrix = generate::solvable(random, 6, 6).matrix;
    for list in [&mut matrix.offsets, &mut matrix.columns] {
        let place = random.below(list.len());
        match random.below(4) {
            0 => list[place] = random.pick(&ENDS),
            1 => list[place] = random.below(8) as u32,
            _ => {}
        }
    }
    comparison.sizes("an offset or a column anywhere", &matrix);
}

pub fn compare(comparison: &mut Comparison, random: &mut Random, count: usize) {
    (0..=MOST_ROWS + 1).for_each(|m| compare_costliest(comparison, "every number of rows", m));
    FAR.into_iter().for_each(|m| compare_costliest(comparison, "far too many rows", m));
    (1..=COUNTED_ROWS).for_each(|m| compare_one_column(comparison, m));
    for m in 1..=SMALL_ROWS {
        (1..=SMALL_COLUMNS).for_each(|n| compare_small_lists(comparison, m, n));
    }
    compare_limits(comparison, &generate::solvable(random, 4, 4).matrix);
    for _ in 0..count {
        compare_lengths(comparison, random);
        compare_numbers(comparison, random);
    }
}
