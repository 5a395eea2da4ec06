//! What a caller lends to a solve, and what it gets back.

pub const LANES: usize = 4;
pub const MOST_ROWS: usize = 256;
pub const MOST_COLUMNS: usize = 1024;
pub const MOST_ENTRIES: usize = 16384;
pub const MOST_TESTS: usize = 10000;

/// The matrix's pattern: m rows, n columns, CSR lists.
#[derive(Clone, Debug, Default, PartialEq)]
pub struct Matrix {
    pub m: usize,
    pub n: usize,
    pub offsets: Vec<u32>,
    pub columns: Vec<u32>,
}

impl Matrix {
    pub fn from_rows(n: usize, rows: &[Vec<usize>]) -> Self {
        let mut matrix = Matrix { m: rows.len(), n, offsets: vec![0], columns: Vec::new() };
        for row in rows {
            matrix.columns.extend(row.iter().map(|&column| column as u32));
            matrix.offsets.push(matrix.columns.len() as u32);
        }
        matrix
    }

    pub fn entries(&self) -> usize {
        self.columns.len()
    }

    /// The places of row i's entries. Only for a matrix that passes question 3.
    pub fn places(&self, i: usize) -> std::ops::Range<usize> {
        self.offsets[i] as usize..self.offsets[i + 1] as usize
    }

    /// The columns of row i's entries. Only for a matrix that passes question 3.
    pub fn row(&self, i: usize) -> &[u32] {
        &self.columns[self.places(i)]
    }
}

/// The centring and the damping of a solve, shared by the lanes.
#[derive(Clone, Copy, Debug, PartialEq)]
pub struct Fractions {
    pub centring: f64,
    pub damping: f64,
}

impl Default for Fractions {
    /// Document 01's, which the Rust and the reading program have for every problem.
    fn default() -> Self {
        Fractions { centring: 0.1, damping: 0.9995 }
    }
}

/// All that a solve is given, apart from the memory lent to it.
#[derive(Clone, Debug, Default)]
pub struct Problem {
    pub matrix: Matrix,
    pub values: Vec<f64>,
    pub s: usize,
    pub b: Vec<f64>,
    pub c: Vec<f64>,
    /// Four primal, four dual, four optimality.
    pub tolerances: Vec<f64>,
    pub limit: usize,
    pub fractions: Fractions,
}

impl Problem {
    /// The same problem with what lane l had now in lane l + by.
    pub fn rotated(&self, by: usize) -> Problem {
        let turn = |numbers: &[f64]| -> Vec<f64> {
            let (groups, _) = numbers.as_chunks::<LANES>();
            groups.iter().flat_map(|group| (0..LANES).map(|l| group[(l + LANES - by) % LANES])).collect()
        };
        Problem { b: turn(&self.b), c: turn(&self.c), tolerances: turn(&self.tolerances), ..self.clone() }
    }

    pub fn with_limit(&self, limit: usize) -> Problem {
        Problem { limit, ..self.clone() }
    }
}

/// Lane l of every entry.
pub fn lane(numbers: &[f64], l: usize) -> Vec<f64> {
    numbers.iter().skip(l).step_by(LANES).copied().collect()
}

/// A no, with document 01's numbers.
#[derive(Clone, Copy, Debug, PartialEq, Eq)]
pub struct Refusal {
    pub question: usize,
    pub place: usize,
    pub lane: usize,
}

impl Refusal {
    pub fn at(question: usize, place: usize) -> Self {
        Refusal { question, place, lane: 0 }
    }
}

/// A solve's answer; x and y as bits, entry k lane l at 4k + l. The reading program tells no y.
#[derive(Clone, Debug, PartialEq, Eq)]
pub enum Answer {
    Accepted { test: usize, x: Vec<u64>, y: Option<Vec<u64>> },
    Refused(Refusal),
}

impl Answer {
    /// In a word, for the counts.
    pub fn kind(&self) -> String {
        match self {
            Answer::Accepted { .. } => "accepted".into(),
            Answer::Refused(no) => format!("refused {:02}", no.question),
        }
    }

    pub fn tells_y(&self) -> bool {
        matches!(self, Answer::Accepted { y: Some(_), .. })
    }

    /// The same answer as one that is told whole; a y that is not told here is left out.
    pub fn agrees(&self, whole: &Answer) -> bool {
        match (self, whole) {
            (Answer::Accepted { test, x, y: None }, Answer::Accepted { test: same_test, x: same_x, .. }) => {
                test == same_test && x == same_x
            }
            _ => self == whole,
        }
    }
}

/// What a plan gives: its words, or a no.
pub type Planned = Result<Vec<u32>, Refusal>;

const NAN_BITS: u64 = 0x7ff8_0000_0000_0000;

/// A number's bits, with one pattern for every NaN.
pub fn settled_bits(number: f64) -> u64 {
    if number.is_nan() { NAN_BITS } else { number.to_bits() }
}

pub fn all_settled_bits(numbers: &[f64]) -> Vec<u64> {
    numbers.iter().copied().map(settled_bits).collect()
}

impl std::fmt::Display for Answer {
    /// The text of document 01's reading program.
    fn fmt(&self, out: &mut std::fmt::Formatter<'_>) -> std::fmt::Result {
        match self {
            Answer::Refused(no) => writeln!(out, "refused {} {} {}", no.question, no.place, no.lane),
            Answer::Accepted { test, x, .. } => {
                writeln!(out, "accepted {test}")?;
                for entry in x.chunks(LANES) {
                    let words: Vec<String> = entry.iter().map(|bits| format!("{bits:016x}")).collect();
                    writeln!(out, "{}", words.join(" "))?;
                }
                Ok(())
            }
        }
    }
}
