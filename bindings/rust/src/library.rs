//! The static library's functions over memory that the caller lends, with slices for pointers and lengths. `ipm.h` says
//! what each part has to hold. This is the only unsafe code of the crate.

use crate::{CENTRING, DAMPING, extern_c};

/// The question of a yes.
pub const YES: u32 = 0;

/// An answer taken apart. Question 0 is a yes, and its place is W, the test, the bytes of a file for [`write_plan`], or
/// 0 for [`costliest`]. Length is that of y after an accepted solve, and 0 otherwise.
#[derive(Clone, Copy, Debug, PartialEq, Eq)]
pub struct Answer {
    pub length: u16,
    pub question: u32,
    pub place: u32,
    pub lane: u8,
}

impl Answer {
    /// length · 2^48 + question · 2^40 + place · 2^8 + lane.
    fn from_code(code: u64) -> Self {
        let question = (code >> 40) as u8;
        Answer { length: (code >> 48) as u16, question: question.into(), place: (code >> 8) as u32, lane: code as u8 }
    }

    /// What a call tells after a yes, or the no.
    fn after_yes<T>(self, told: T) -> Result<T, Answer> {
        if self.question == YES { Ok(told) } else { Err(self) }
    }
}

/// The matrix lent, m rows by n columns, and its first s rows that are inequalities.
#[derive(Clone, Debug)]
pub struct Matrix {
    pub m: usize,
    pub n: usize,
    pub s: usize,
    pub offsets: Vec<u32>,
    pub columns: Vec<u32>,
    pub values: Vec<f64>,
}

/// What a solve reads besides the matrix. With a file, that of the matrix's plan, it asks questions 14 to 16 after 5;
/// an empty file is a file.
#[derive(Clone, Copy)]
pub struct Sides<'a> {
    pub b: &'a [f64],
    pub c: &'a [f64],
    pub tolerances: &'a [f64],
    pub limit: usize,
    pub file: Option<&'a [u8]>,
}

/// The lists of a plan, each a record of its file.
const LISTS: usize = 16;
/// The bytes of a record's length and kind, and of one number in its body.
const HEAD: usize = 6;
const NUMBER: usize = 4;

/// The bytes of the file of a plan that has so many words.
pub const fn file_bytes(words: usize) -> usize {
    NUMBER * words + LISTS * HEAD
}

/// The memory that a solve writes: after a yes x is in `output` and y in `prices`.
pub struct Lent<'a> {
    pub output: &'a mut [f64],
    pub prices: &'a mut [f64],
    pub index: &'a mut [u32],
    pub work: &'a mut [f64],
}

/// What a matrix needs.
#[derive(Clone, Copy, Debug, PartialEq, Eq)]
pub struct Sizes {
    /// E: entries of the factor.
    pub stored: usize,
    /// S: pairs of entries that share a column, each entry with itself, too.
    pub shared: usize,
    /// D: products that the factor's entries take off.
    pub products: usize,
    /// W: words of index memory.
    pub words: usize,
    /// F: numbers of working memory.
    pub numbers: usize,
}

/// The most that any matrix of so many rows has.
#[derive(Clone, Copy, Debug, PartialEq, Eq)]
pub struct Costliest {
    /// E: entries of the factor.
    pub stored: usize,
    /// D: products that the factor's entries take off.
    pub products: usize,
}

/// Questions 1 to 5 and 7, and what the matrix needs, or the no. Values are not asked about.
pub fn sizes(matrix: &Matrix) -> Result<Sizes, Answer> {
    let mut counts = [0; 5];
    let [e, s, d, w, f] = &mut counts;
    // Safety: every pointer comes with the length of its own slice, and slices of Rust that are written do not overlap
    // others.
    let answer = Answer::from_code(unsafe {
        extern_c::ipm_sizes(
            matrix.m,
            matrix.n,
            matrix.s,
            matrix.offsets.as_ptr(),
            matrix.offsets.len(),
            matrix.columns.as_ptr(),
            matrix.columns.len(),
            e,
            s,
            d,
            w,
            f,
        )
    });
    let [stored, shared, products, words, numbers] = counts.map(|count| count as usize);
    answer.after_yes(Sizes { stored, shared, products, words, numbers })
}

/// Question 1, and the most that any m rows have, which is what m rows of one column have, or the no.
pub fn costliest(m: usize) -> Result<Costliest, Answer> {
    let (mut e, mut d) = (0, 0);
    let answer = Answer::from_code(extern_c::ipm_costliest(m, &mut e, &mut d));
    answer.after_yes(Costliest { stored: e as usize, products: d as usize })
}

/// Questions 1 to 6 and the plan.
pub fn plan(matrix: &Matrix, index: &mut [u32]) -> Answer {
    // Safety: as for `sizes`.
    Answer::from_code(unsafe {
        extern_c::ipm_plan(
            matrix.m,
            matrix.n,
            matrix.offsets.as_ptr(),
            matrix.offsets.len(),
            matrix.columns.as_ptr(),
            matrix.columns.len(),
            index.as_mut_ptr(),
            index.len(),
        )
    })
}

/// Questions 1 to 6, then 8 about the file, which has to have [`file_bytes`] or more; the plan and its file.
pub fn write_plan(matrix: &Matrix, index: &mut [u32], file: &mut [u8]) -> Answer {
    // Safety: as for `sizes`.
    Answer::from_code(unsafe {
        extern_c::ipm_write_plan(
            matrix.m,
            matrix.n,
            matrix.offsets.as_ptr(),
            matrix.offsets.len(),
            matrix.columns.as_ptr(),
            matrix.columns.len(),
            index.as_mut_ptr(),
            index.len(),
            file.as_mut_ptr(),
            file.len(),
        )
    })
}

/// Questions 1 to 5, 14 to 16 about the file, then 6; the plan that is in the file. The file is lent without a byte
/// more.
pub fn read_plan(matrix: &Matrix, file: &[u8], index: &mut [u32]) -> Answer {
    // Safety: as for `sizes`.
    Answer::from_code(unsafe {
        extern_c::ipm_read_plan(
            matrix.m,
            matrix.n,
            matrix.offsets.as_ptr(),
            matrix.offsets.len(),
            matrix.columns.as_ptr(),
            matrix.columns.len(),
            file.as_ptr(),
            file.len(),
            index.as_mut_ptr(),
            index.len(),
        )
    })
}

/// [`solve_with`] at [`CENTRING`] and [`DAMPING`].
pub fn solve(matrix: &Matrix, sides: Sides<'_>, lent: Lent<'_>) -> Answer {
    solve_with(matrix, sides, lent, CENTRING, DAMPING)
}

/// Questions 1 to 5, 14 to 16 if there is a file, 6 to 10, then 13, then 11 and 12 test by test; x and y.
pub fn solve_with(matrix: &Matrix, sides: Sides<'_>, lent: Lent<'_>, centring: f64, damping: f64) -> Answer {
    let file = sides.file.unwrap_or_default();
    // Safety: as for `sizes`.
    Answer::from_code(unsafe {
        extern_c::ipm_solve(
            matrix.m,
            matrix.n,
            matrix.s,
            matrix.offsets.as_ptr(),
            matrix.offsets.len(),
            matrix.columns.as_ptr(),
            matrix.columns.len(),
            matrix.values.as_ptr(),
            matrix.values.len(),
            sides.b.as_ptr(),
            sides.b.len(),
            sides.c.as_ptr(),
            sides.c.len(),
            sides.tolerances.as_ptr(),
            sides.tolerances.len(),
            sides.limit,
            centring,
            damping,
            sides.file.is_some().into(),
            file.as_ptr(),
            file.len(),
            lent.output.as_mut_ptr(),
            lent.output.len(),
            lent.prices.as_mut_ptr(),
            lent.prices.len(),
            lent.index.as_mut_ptr(),
            lent.index.len(),
            lent.work.as_mut_ptr(),
            lent.work.len(),
        )
    })
}

/// See [`crate::root_bits`].
pub fn root_bits(bits: u64) -> u64 {
    extern_c::ipm_root_bits(bits)
}

#[cfg(test)]
mod tests {
    use super::*;

    #[test]
    fn an_answer_is_taken_apart() {
        let code = (11 << 40) + (10_000 << 8) + 3;
        assert_eq!(Answer::from_code(code), Answer { length: 0, question: 11, place: 10_000, lane: 3 });
        let accepted = (1024 << 48) + (14 << 8);
        assert_eq!(Answer::from_code(accepted), Answer { length: 1024, question: 0, place: 14, lane: 0 });
        let widest = Answer { length: u16::MAX, question: 255, place: u32::MAX, lane: 255 };
        assert_eq!(Answer::from_code(u64::MAX), widest);
    }
}
