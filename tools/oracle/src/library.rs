//! The static library under test, through its C interface. Switched on by IPM_C at build time, the path of
//! libipm_c.a. It also looks at every buffer: what a no must leave, and what 11, 12 and acceptance must leave.

use crate::backend::{Backend, Told};
use crate::extern_c::{ipm_costliest, ipm_plan, ipm_read_plan, ipm_sizes, ipm_solve, ipm_write_plan};
use crate::file::{Filed, KIND, LENGTH, NUMBER as NUMBER_BYTES, Written};
use crate::plan::{Counts, Measured, NAMES, Sizes, plan_words, work_numbers};
use crate::problem::{Answer, LANES, Matrix, Planned, Problem, Refusal, all_settled_bits};
use crate::questions::{Room, ask_plan};
use crate::reference;

/// What unwritten memory and results hold, and how much is lent past the need.
const WORD: u32 = 0xdead_beef;
const BYTE: u8 = 0xa5;
const NUMBER: f64 = -7.25;
const RESULT: u64 = 0xdead_beef_dead_beef;
pub const SPARE: usize = 3;

/// The bytes of a file's lengths and kinds.
const HEADS: usize = NAMES.len() * (LENGTH + KIND);

/// The library's answer taken apart. Question 0 is a yes: the place is the test, W for a plan and sizes, the bytes of a
/// file, or 0.
struct Code {
    length: usize,
    told: Refusal,
}

impl Code {
    /// length * 2^48 + question * 2^40 + place * 2^8 + lane.
    fn new(code: u64) -> Self {
        let (question, place, lane) = ((code >> 40) as u8, (code >> 8) as u32, code as u8);
        let told = Refusal { question: question.into(), place: place as usize, lane: lane.into() };
        Code { length: (code >> 48) as usize, told }
    }
}

/// The file lent to a solve: a flag, any number but 0 saying that there is one, and bytes.
#[derive(Clone, Copy, Debug)]
pub struct Filing<'a> {
    pub flag: usize,
    pub bytes: &'a [u8],
}

const NO_FILE: Filing<'static> = Filing { flag: 0, bytes: &[] };

/// The buffers lent to one solve.
struct Lent {
    output: Vec<f64>,
    prices: Vec<f64>,
    index: Vec<u32>,
    work: Vec<f64>,
}

impl Lent {
    fn new(room: Room) -> Self {
        let numbers = |count| vec![NUMBER; count];
        Lent {
            output: numbers(room.output),
            prices: numbers(room.prices),
            index: vec![WORD; room.index],
            work: numbers(room.work),
        }
    }
}

fn call_plan(matrix: &Matrix, index: &mut [u32]) -> Code {
    let (offsets, columns) = (&matrix.offsets, &matrix.columns);
    // Safety: every pointer comes with the length of its own slice, which outlives the call.
    Code::new(unsafe {
        ipm_plan(
            matrix.m,
            matrix.n,
            offsets.as_ptr(),
            offsets.len(),
            columns.as_ptr(),
            columns.len(),
            index.as_mut_ptr(),
            index.len(),
        )
    })
}

fn call_write_plan(matrix: &Matrix, index: &mut [u32], file: &mut [u8]) -> Code {
    let (offsets, columns) = (&matrix.offsets, &matrix.columns);
    // Safety: every pointer comes with the length of its own slice, which outlives the call.
    Code::new(unsafe {
        ipm_write_plan(
            matrix.m,
            matrix.n,
            offsets.as_ptr(),
            offsets.len(),
            columns.as_ptr(),
            columns.len(),
            index.as_mut_ptr(),
            index.len(),
            file.as_mut_ptr(),
            file.len(),
        )
    })
}

fn call_read_plan(matrix: &Matrix, file: &[u8], index: &mut [u32]) -> Code {
    let (offsets, columns) = (&matrix.offsets, &matrix.columns);
    // Safety: every pointer comes with the length of its own slice, which outlives the call.
    Code::new(unsafe {
        ipm_read_plan(
            matrix.m,
            matrix.n,
            offsets.as_ptr(),
            offsets.len(),
            columns.as_ptr(),
            columns.len(),
            file.as_ptr(),
            file.len(),
            index.as_mut_ptr(),
            index.len(),
        )
    })
}

fn call_sizes(matrix: &Matrix, s: usize, [e, s_count, d, w, f]: &mut [u64; 5]) -> Code {
    let (offsets, columns) = (&matrix.offsets, &matrix.columns);
    // Safety: every pointer comes with the length of its own slice, which outlives the call.
    Code::new(unsafe {
        ipm_sizes(
            matrix.m,
            matrix.n,
            s,
            offsets.as_ptr(),
            offsets.len(),
            columns.as_ptr(),
            columns.len(),
            e,
            s_count,
            d,
            w,
            f,
        )
    })
}

fn call_solve(problem: &Problem, file: Filing<'_>, lent: &mut Lent) -> Code {
    let (matrix, values) = (&problem.matrix, &problem.values);
    let (b, c, tolerances) = (&problem.b, &problem.c, &problem.tolerances);
    // Safety: every pointer comes with the length of its own slice, which outlives the call.
    Code::new(unsafe {
        ipm_solve(
            matrix.m,
            matrix.n,
            problem.s,
            matrix.offsets.as_ptr(),
            matrix.offsets.len(),
            matrix.columns.as_ptr(),
            matrix.columns.len(),
            values.as_ptr(),
            values.len(),
            b.as_ptr(),
            b.len(),
            c.as_ptr(),
            c.len(),
            tolerances.as_ptr(),
            tolerances.len(),
            problem.limit,
            problem.fractions.centring,
            problem.fractions.damping,
            file.flag,
            file.bytes.as_ptr(),
            file.bytes.len(),
            lent.output.as_mut_ptr(),
            lent.output.len(),
            lent.prices.as_mut_ptr(),
            lent.prices.len(),
            lent.index.as_mut_ptr(),
            lent.index.len(),
            lent.work.as_mut_ptr(),
            lent.work.len(),
        )
    })
}

fn check(yes: bool, fault: &str) -> Result<(), String> {
    if yes { Ok(()) } else { Err(fault.to_string()) }
}

/// Both outputs after any no.
fn check_outputs_untouched(lent: &Lent) -> Result<(), String> {
    check(lent.output.iter().all(|&p| p == NUMBER), "a refusal changed the output")?;
    check(lent.prices.iter().all(|&p| p == NUMBER), "a refusal changed the prices")
}

/// Index and working memory after any no but 11 and 12.
fn check_memory_untouched(lent: &Lent) -> Result<(), String> {
    check(lent.index.iter().all(|&word| word == WORD), "a refusal changed the index memory")?;
    check(lent.work.iter().all(|&p| p == NUMBER), "a refusal changed the working memory")
}

/// Index and working memory after 11, 12 or acceptance.
fn check_left(problem: &Problem, lent: &Lent) -> Result<(), String> {
    let matrix = &problem.matrix;
    let plan = reference::plan(matrix, usize::MAX).map_err(|no| format!("refused by the reference: {no:?}"))?;
    let (words, spare) = lent.index.split_at(plan.len().min(lent.index.len()));
    check(words == plan, "the index memory does not hold the plan")?;
    check(spare.iter().all(|&word| word == WORD), "index words past W were changed")?;
    let counts = ask_plan(matrix, usize::MAX).map_err(|no| format!("refused by the reference: {no:?}"))?;
    let (work, spare) = lent.work.split_at(work_numbers(matrix, problem.s, counts).min(lent.work.len()));
    check(work.iter().all(|p| p.to_bits() == 0), "the working memory is not +0.0")?;
    check(spare.iter().all(|&p| p == NUMBER), "working numbers past F were changed")
}

/// The library's answer with this much lent and no file.
pub fn solve_in(problem: &Problem, room: Room) -> Result<Answer, String> {
    solve_filed(problem, NO_FILE, room)
}

/// The library's answer with this file and this much lent, and a look at every buffer.
pub fn solve_filed(problem: &Problem, file: Filing<'_>, room: Room) -> Result<Answer, String> {
    let mut lent = Lent::new(room);
    let Code { length, told } = call_solve(problem, file, &mut lent);
    match told.question {
        0 | 11 | 12 => check_left(problem, &lent)?,
        _ => check_memory_untouched(&lent)?,
    }
    if told.question != 0 {
        check(length == 0, "a refusal has a length")?;
        check_outputs_untouched(&lent)?;
        return Ok(Answer::Refused(told));
    }
    check(length == LANES * problem.matrix.m, "the answer's length is not that of y")?;
    let (x, y) = (all_settled_bits(&lent.output), all_settled_bits(&lent.prices));
    Ok(Answer::Accepted { test: told.place, x, y: Some(y) })
}

/// What a problem needs, and a little more.
pub fn enough(problem: &Problem) -> Room {
    let matrix = &problem.matrix;
    let (index, work) = match ask_plan(matrix, usize::MAX) {
        Err(_) => (0, 0),
        Ok(counts) => (plan_words(matrix, counts), work_numbers(matrix, problem.s, counts)),
    };
    Room { index: index + SPARE, work: work + SPARE, ..Room::ample(problem) }
}

/// What a call leaves in so much index memory: the plan, and nothing else, or nothing at all.
fn planned_in(index: usize, call: impl FnOnce(&mut [u32]) -> Code) -> Result<Planned, String> {
    let mut words = vec![WORD; index];
    let Code { length, told } = call(&mut words);
    check(length == 0, "a plan has a length")?;
    if told.question != 0 {
        check(words.iter().all(|&word| word == WORD), "a refusal changed the index memory")?;
        return Ok(Err(told));
    }
    check(told.place <= index, "a plan longer than its memory")?;
    check(words[told.place..].iter().all(|&word| word == WORD), "index words past W were changed")?;
    words.truncate(told.place);
    Ok(Ok(words))
}

pub fn plan_in(matrix: &Matrix, index: usize) -> Result<Planned, String> {
    planned_in(index, |words| call_plan(matrix, words))
}

/// What reading a file leaves in so much index memory.
pub fn read_in(matrix: &Matrix, file: &[u8], index: usize) -> Result<Planned, String> {
    planned_in(index, |words| call_read_plan(matrix, file, words))
}

/// What writing leaves in so much index memory and a file of so many bytes.
pub fn write_in(matrix: &Matrix, index: usize, bytes: usize) -> Result<Filed, String> {
    let (mut words, mut file) = (vec![WORD; index], vec![BYTE; bytes]);
    let Code { length, told } = call_write_plan(matrix, &mut words, &mut file);
    check(length == 0, "a file has a length")?;
    if told.question != 0 {
        check(words.iter().all(|&word| word == WORD), "a refusal changed the index memory")?;
        check(file.iter().all(|&byte| byte == BYTE), "a refusal changed the file")?;
        return Ok(Err(told));
    }
    check(told.place <= bytes && told.place >= HEADS && told.lane == 0, "a yes with another place or lane")?;
    let used = (told.place - HEADS) / NUMBER_BYTES;
    check(used <= index, "a plan longer than its memory")?;
    check(words[used..].iter().all(|&word| word == WORD), "index words past W were changed")?;
    check(file[told.place..].iter().all(|&byte| byte == BYTE), "bytes past the file were changed")?;
    words.truncate(used);
    file.truncate(told.place);
    Ok(Ok(Written { words, bytes: file }))
}

/// The same file in just enough memory; a no at 6 with one word less, whatever the file's length; a no at 8 with one
/// byte less; and the plan again when it is read.
fn check_written(matrix: &Matrix, written: &Written) -> Result<(), String> {
    let (words, bytes) = (written.words.len(), written.bytes.len());
    let no = |question| Refusal::at(question, 0);
    check(write_in(matrix, words, bytes)?.as_ref() == Ok(written), "just enough memory gives another file")?;
    for bytes in [0, bytes - 1, bytes, bytes + SPARE] {
        check(write_in(matrix, words - 1, bytes)? == Err(no(6)), "a file is written with an index word too few")?;
    }
    for (words, bytes) in [(words, bytes - 1), (words + SPARE, bytes - 1), (words, 0)] {
        check(write_in(matrix, words, bytes)? == Err(no(8)), "a file is written with a byte too few")?;
    }
    for index in [words, words + SPARE] {
        check(read_in(matrix, &written.bytes, index)?.as_ref() == Ok(&written.words), "a file is read as another")?;
    }
    check(read_in(matrix, &written.bytes, words - 1)? == Err(no(6)), "a file is read with an index word too few")
}

/// The most E and D that so many rows have.
#[derive(Clone, Copy, Debug, PartialEq, Eq)]
pub struct Most {
    pub stored: usize,
    pub products: usize,
}

/// What the library says that m rows have at most, and a look at both results.
pub fn costliest(m: usize) -> Result<Result<Most, Refusal>, String> {
    let (mut e, mut d) = (RESULT, RESULT);
    let Code { length, told } = Code::new(ipm_costliest(m, &mut e, &mut d));
    check(length == 0, "the costliest has a length")?;
    if told.question != 0 {
        check([e, d] == [RESULT; 2], "a refusal changed a result")?;
        return Ok(Err(told));
    }
    check(told == Refusal::at(0, 0), "the costliest has a place or a lane")?;
    Ok(Ok(Most { stored: e as usize, products: d as usize }))
}

/// No matrix has more E and D than the costliest of as many rows, and its S is at most t (m + 1) / 2: on this the
/// header's memory for a size rests.
fn check_most(matrix: &Matrix, counts: Counts) -> Result<(), String> {
    let most = costliest(matrix.m)?.map_err(|no| format!("no costliest: {no:?}"))?;
    check(counts.stored <= most.stored && counts.products <= most.products, "more than the costliest")?;
    check(counts.shared <= matrix.entries() * (matrix.m + 1) / 2, "more pairs than full columns have")
}

/// What the library says that a matrix needs, and a look at every result.
fn measure(matrix: &Matrix, s: usize) -> Result<Measured, String> {
    let mut results = [RESULT; 5];
    let Code { length, told } = call_sizes(matrix, s, &mut results);
    check(length == 0, "sizes have a length")?;
    if told.question != 0 {
        check(results == [RESULT; 5], "a refusal changed a result")?;
        return Ok(Err(told));
    }
    let [stored, shared, products, words, numbers] = results.map(|result| result as usize);
    check(told == Refusal::at(0, words), "the place of a yes is not W")?;
    let counts = Counts { stored, shared, products };
    check_most(matrix, counts)?;
    Ok(Ok(Sizes { counts, words, numbers }))
}

pub struct Library;

impl Backend for Library {
    fn name(&self) -> &'static str {
        "static library"
    }

    fn solve(&mut self, problem: &Problem) -> Result<Option<Told>, String> {
        solve_in(problem, enough(problem)).map(|answer| Some(Told::only(answer)))
    }

    fn plan(&mut self, matrix: &Matrix) -> Result<Option<Planned>, String> {
        let index = ask_plan(matrix, usize::MAX).map_or(0, |counts| plan_words(matrix, counts));
        plan_in(matrix, index + SPARE).map(Some)
    }

    fn sizes(&mut self, matrix: &Matrix, s: usize) -> Result<Option<Measured>, String> {
        measure(matrix, s).map(Some)
    }

    fn file(&mut self, matrix: &Matrix) -> Result<Option<Filed>, String> {
        let index = ask_plan(matrix, usize::MAX).map_or(0, |counts| plan_words(matrix, counts));
        let filed = write_in(matrix, index + SPARE, NUMBER_BYTES * index + HEADS + SPARE)?;
        if let Ok(written) = &filed {
            check_written(matrix, written)?;
        }
        Ok(Some(filed))
    }
}
