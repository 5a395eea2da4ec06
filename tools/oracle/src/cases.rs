//! Writes the lists of cases that are replayed with no Rust at hand.
//!
//! A solve case: number of bytes, record, number of bytes, answer. A plan case: m, n, t, offsets, columns, W, the W
//! words. Every number beside record and answer is a u32, little-endian. A plan's file: `file_cases.rs`.

use std::path::Path;

use crate::backend::Backend;
use crate::file_cases::file_cases;
use crate::generate;
use crate::problem::{Answer, LANES, MOST_TESTS, Matrix, Problem};
use crate::questions::Room;
use crate::random::Random;
use crate::record::{READING, read, write};
use crate::reference;
use crate::unchanged::Unchanged;

/// How many random problems of each kind.
const OF_EACH_KIND: usize = 38;
const RANDOM_PLANS: usize = 180;

/// What the reading program prints for any bytes: by the reference, and the Rust where it takes the problem.
pub fn reading_text(bytes: &[u8]) -> Result<String, String> {
    let Some(problem) = read(bytes, READING) else { return Ok("input\n".into()) };
    let answer = reference::run(&problem, Room::ample(&problem)).answer;
    match Unchanged.solve(&problem)? {
        Some(told) if told.answer != answer => Err(format!("the Rust answers {:?}, not {answer:?}", told.answer)),
        _ => Ok(answer.to_string()),
    }
}

/// The first worked example: row {0} with value, b and c 1, one slack row.
fn worked() -> Problem {
    Problem {
        matrix: Matrix::from_rows(1, &[vec![0]]),
        values: vec![1.0],
        s: 1,
        b: vec![1.0; LANES],
        c: vec![1.0; LANES],
        tolerances: vec![1e9; 3 * LANES],
        limit: 1,
        ..Problem::default()
    }
}

fn worked_examples() -> Vec<Problem> {
    let first = worked();
    let mut second = worked();
    second.c = vec![0.0; LANES];
    second.tolerances[LANES..2 * LANES].fill(0.0);
    let mut third = worked().with_limit(2);
    third.b[2] = f64::NAN;
    third.tolerances.fill(1e-8);
    vec![first, second, third]
}

/// Refusals at the sizes' edges, each with its smallest record.
fn small_refusals() -> Vec<Problem> {
    let one = worked();
    let with_rows = |rows: &[Vec<usize>], n: usize| Problem {
        matrix: Matrix::from_rows(n, rows),
        values: vec![1.0; rows.concat().len()],
        b: vec![1.0; LANES * rows.len()],
        c: vec![1.0; LANES * n],
        ..worked()
    };
    let mut offsets_start = one.clone();
    offsets_start.matrix.offsets[0] = 1;
    let mut offsets_end = one.clone();
    offsets_end.matrix.offsets[1] = 2;
    vec![
        generate::without_rows(one.clone()),
        generate::without_columns(one.clone()),
        generate::without_columns(generate::without_rows(one.clone())),
        offsets_start,
        offsets_end,
        with_rows(&[vec![], vec![0]], 1),
        with_rows(&[vec![0], vec![]], 1),
        with_rows(&[vec![1, 1]], 2),
        with_rows(&[vec![0], vec![1]], 1),
        Problem { s: 2, ..one.clone() },
        one.with_limit(0),
        one.with_limit(10000),
        one.with_limit(10001),
        one.with_limit(65535),
    ]
}

/// Bytes that are no record, and records beyond the reading program's sizes.
fn rubbish() -> Vec<Vec<u8>> {
    let good = write(&worked());
    let mut long = good.clone();
    long.push(0);
    let mut kind = good.clone();
    kind[4] = 2;
    let mut short_length = good.clone();
    short_length[0] -= 1;
    let mut more_entries = good.clone();
    more_entries[14] += 1;
    let too_large = |m: usize, n: usize| {
        let rows: Vec<Vec<usize>> = (0..m).map(|i| vec![i % n]).collect();
        let (b, c) = (vec![1.0; LANES * m], vec![1.0; LANES * n]);
        write(&Problem { matrix: Matrix::from_rows(n, &rows), values: vec![1.0; m], b, c, ..worked() })
    };
    let mut cases = vec![vec![], good[..3].to_vec(), good[..4].to_vec(), good[..good.len() - 1].to_vec()];
    cases.extend([long, kind, short_length, more_entries, too_large(17, 1), too_large(1, 33)]);
    cases.push(write(&full(9, 15, 129)));
    cases
}

/// Rows that hold every column, up to t entries.
fn full(m: usize, n: usize, t: usize) -> Problem {
    let rows: Vec<Vec<usize>> = (0..m).map(|i| (0..n).filter(|e| i * n + e < t).collect()).collect();
    Problem {
        matrix: Matrix::from_rows(n, &rows),
        values: (0..t).map(|k| 1.0 + k as f64 / 64.0).collect(),
        s: m,
        b: (0..LANES * m).map(|k| 10.0 + k as f64).collect(),
        c: (0..LANES * n).map(|k| 1.0 + (k % 7) as f64).collect(),
        tolerances: vec![1e-8; 3 * LANES],
        limit: 200,
        ..Problem::default()
    }
}

fn random_problems(random: &mut Random) -> Vec<Problem> {
    let mut problems = vec![full(16, 8, 128), full(4, 32, 128), generate::never_done().with_limit(MOST_TESTS)];
    for _ in 0..OF_EACH_KIND {
        problems.push(generate::solvable(random, 3, 3));
        problems.push(generate::early(random));
        problems.push(generate::one_bad_lane(random));
        problems.push(generate::edges(random, 2, 3));
        problems.push(generate::bad_wait(random));
        problems.push(generate::runaway(random).with_limit(60));
        problems.push(generate::wrong(random));
    }
    problems
}

/// Limits one below, at and above the test that accepts.
fn around_limits(random: &mut Random) -> Vec<Problem> {
    let problem = generate::early(random);
    match reference::run(&problem, Room::ample(&problem)).answer {
        Answer::Accepted { test, .. } if test > 1 => {
            (test - 1..=test + 1).map(|limit| problem.with_limit(limit)).collect()
        }
        _ => Vec::new(),
    }
}

fn number(number: usize) -> [u8; 4] {
    (number as u32).to_le_bytes()
}

fn solve_cases(random: &mut Random) -> Result<Vec<Vec<u8>>, String> {
    let mut problems = worked_examples();
    problems.extend(small_refusals());
    problems.extend(random_problems(random));
    (0..8).for_each(|_| problems.extend(around_limits(random)));
    let records = problems.iter().map(write).chain(rubbish());
    let case = |record: Vec<u8>| {
        let text = reading_text(&record)?;
        Ok([&number(record.len()), &record[..], &number(text.len()), text.as_bytes()].concat())
    };
    records.map(case).collect()
}

/// The patterns that document 01 tries, every two by two, a full one, and random ones.
fn plan_matrices(random: &mut Random) -> Vec<Matrix> {
    let named: [(usize, &[&[usize]]); 4] =
        [(1, &[&[0]]), (2, &[&[0, 1], &[0], &[1]]), (2, &[&[0], &[1], &[0, 1]]), (3, &[&[0, 1], &[1, 2], &[0], &[2]])];
    let rows = |rows: &[&[usize]]| rows.iter().map(|row| row.to_vec()).collect::<Vec<_>>();
    let mut matrices: Vec<Matrix> = named.iter().map(|&(n, lists)| Matrix::from_rows(n, &rows(lists))).collect();
    let choices: [&[usize]; 3] = [&[0], &[1], &[0, 1]];
    for first in choices {
        matrices.extend(choices.iter().map(|second| Matrix::from_rows(2, &rows(&[first, second]))));
    }
    matrices.push(Matrix::from_rows(1, &vec![vec![0]; 16]));
    for _ in 0..RANDOM_PLANS {
        let (m, n, tenths) = (random.between(1, 9), random.between(1, 9), random.below(4));
        matrices.push(generate::matrix(random, m, n, tenths));
    }
    matrices
}

fn plan_cases(random: &mut Random) -> Result<Vec<Vec<u8>>, String> {
    let case = |matrix: Matrix| {
        let words = Unchanged.plan(&matrix)?.ok_or("a matrix not for the Rust")?;
        if words != reference::plan(&matrix, usize::MAX) {
            return Err(format!("the Rust's lists differ: {matrix:?}"));
        }
        let words = words.expect("a plan");
        let mut bytes = [number(matrix.m), number(matrix.n), number(matrix.entries())].concat();
        bytes.extend(matrix.offsets.iter().chain(&matrix.columns).flat_map(|word| word.to_le_bytes()));
        bytes.extend(number(words.len()));
        bytes.extend(words.iter().flat_map(|word| word.to_le_bytes()));
        Ok(bytes)
    };
    plan_matrices(random).into_iter().map(case).collect()
}

/// Cases put together into files of at most so many bytes.
fn pieces(cases: Vec<Vec<u8>>, most: usize) -> Vec<Vec<u8>> {
    let mut files: Vec<Vec<u8>> = vec![Vec::new()];
    for case in cases {
        if files[files.len() - 1].len() + case.len() > most {
            files.push(Vec::new());
        }
        files.last_mut().expect("a file").extend(case);
    }
    files
}

fn write_pieces(folder: &Path, name: &str, cases: Vec<Vec<u8>>, most: usize) -> Result<(), String> {
    let count = cases.len();
    let files = pieces(cases, most);
    let single = files.len() == 1;
    for (k, bytes) in files.iter().enumerate() {
        let file = if single { format!("{name}.bin") } else { format!("{name}-{}.bin", k + 1) };
        std::fs::write(folder.join(&file), bytes).map_err(|e| format!("{file}: {e}"))?;
        println!("{file}: {} bytes", bytes.len());
    }
    println!("{name}: {count} cases");
    Ok(())
}

/// Writes solve.bin, plan.bin and files.bin, or solve-1.bin and so on if one file would have more than `most` bytes.
pub fn write_cases(folder: &Path, seed: u64, most: usize) -> Result<(), String> {
    let random = &mut Random::new(seed);
    write_pieces(folder, "solve", solve_cases(random)?, most)?;
    write_pieces(folder, "plan", plan_cases(random)?, most)?;
    write_pieces(folder, "files", file_cases(random)?, most)
}
