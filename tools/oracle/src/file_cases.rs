//! The cases of a plan's file: files of the Rust's lists, whole, with notes or with something wrong, and the answer that
//! `decide.rs` has for each.
//!
//! A case: 1 for a writing call and 0 for a reading one; m, n; how many offsets, how many columns; the words of index
//! memory lent; the bytes of file memory lent to a writing call; the answer's question (0 for a yes), place and lane; how
//! many words; how many bytes; the offsets, the columns, the words that index memory has first after the call, and the
//! bytes that are read or that file memory has first after the call, with zeros up to whole numbers.

use crate::decide::{Listed, read_plan, write_plan};
use crate::file::{FIRST_NOTE, KIND, LENGTH, NUMBER, Record, joined, listed, starts, with_all_notes};
use crate::generate;
use crate::problem::{Matrix, Refusal};
use crate::questions::ask_matrix;
use crate::random::Random;
use crate::{reference, rust};

/// Lent beyond what is needed.
const SPARE: usize = 3;
const LONG_BODY: usize = 257;
const RANDOM_MATRICES: usize = 2;

/// What a list of another width adds to its kind.
const OTHER_WIDTH: u16 = 256;
/// Kinds that are neither a list nor a note.
const NO_KINDS: [u16; 5] = [0, 17, OTHER_WIDTH + 1, OTHER_WIDTH + 2, FIRST_NOTE - 1];
/// Lengths below a kind's, and far beyond the file.
const LENGTHS: [u32; 5] = [0, 1, 1 << 16, 1 << 31, u32::MAX];

struct Subject {
    matrix: Matrix,
    lists: Listed,
}

impl Subject {
    fn new(matrix: Matrix) -> Result<Self, String> {
        let lists = ask_matrix(&matrix, None).map(|()| rust::lists(&matrix));
        match &lists {
            Ok(lists) if Ok(lists.concat()) != reference::plan(&matrix, usize::MAX) => {
                Err(format!("the Rust's lists differ: {matrix:?}"))
            }
            _ => Ok(Subject { matrix, lists }),
        }
    }

    fn of_rows(n: usize, rows: &[&[usize]]) -> Result<Self, String> {
        let rows: Vec<Vec<usize>> = rows.iter().map(|row| row.to_vec()).collect();
        Self::new(Matrix::from_rows(n, &rows))
    }

    /// Only for a matrix that is not refused.
    fn records(&self) -> Vec<Record> {
        listed(self.lists.as_ref().expect("lists"))
    }

    fn words(&self) -> usize {
        self.lists.as_ref().map_or(0, |lists| lists.iter().map(Vec::len).sum())
    }

    fn case(&self, writes: bool, index: usize, lent: usize, told: Told) -> Vec<u8> {
        let Matrix { m, n, offsets, columns } = &self.matrix;
        let Told { no: Refusal { question, place, lane }, words, bytes } = told;
        let sizes = [usize::from(writes), *m, *n, offsets.len(), columns.len(), index, lent];
        let answer = [question, place, lane, words.len(), bytes.len()];
        let head = sizes.into_iter().chain(answer).map(|number| number as u32);
        let lists = offsets.iter().chain(columns).chain(&words).copied();
        let mut case: Vec<u8> = head.chain(lists).flat_map(u32::to_le_bytes).collect();
        case.extend(bytes);
        case.resize(case.len().next_multiple_of(NUMBER), 0);
        case
    }

    /// A reading call in so many words.
    fn read_in(&self, file: &[u8], index: usize) -> Vec<u8> {
        let told = match read_plan(&self.lists, file, index) {
            Ok(words) => Told { no: Refusal::at(0, words.len()), words, bytes: file.to_vec() },
            Err(no) => Told { no, words: Vec::new(), bytes: file.to_vec() },
        };
        self.case(false, index, 0, told)
    }

    /// A reading call in enough words.
    fn read(&self, file: &[u8]) -> Vec<u8> {
        self.read_in(file, self.words() + SPARE)
    }

    fn write(&self, index: usize, lent: usize) -> Vec<u8> {
        let told = match write_plan(&self.lists, index, lent) {
            Ok(whole) => Told { no: Refusal::at(0, whole.bytes.len()), words: whole.words, bytes: whole.bytes },
            Err(no) => Told { no, words: Vec::new(), bytes: Vec::new() },
        };
        self.case(true, index, lent, told)
    }
}

/// The answer, a yes as question 0, and what the memories have first after the call.
struct Told {
    no: Refusal,
    words: Vec<u32>,
    bytes: Vec<u8>,
}

fn note(kind: u16, body: Vec<u8>) -> Record {
    Record { kind, body }
}

/// The records with one more before the one at a place.
fn with(records: &[Record], place: usize, more: Record) -> Vec<u8> {
    joined(&[&records[..place], &[more], &records[place..]].concat())
}

/// The records after a change to them.
fn changed(records: &[Record], change: impl FnOnce(&mut Vec<Record>)) -> Vec<u8> {
    let mut records = records.to_vec();
    change(&mut records);
    joined(&records)
}

/// What is done for every matrix: written and read in memory of several lengths, and with notes.
fn good(subject: &Subject) -> Vec<Vec<u8>> {
    let (records, words) = (subject.records(), subject.words());
    let file = joined(&records);
    let enough = [(words + SPARE, file.len() + SPARE), (words, file.len())];
    let short = [(words, file.len() - 1), (words, 0), (words - 1, file.len()), (0, 0)];
    let mut cases: Vec<_> = enough.iter().chain(&short).map(|&(index, bytes)| subject.write(index, bytes)).collect();
    cases.extend([words + SPARE, words, words - 1, 0].map(|index| subject.read_in(&file, index)));
    let all_notes = joined(&with_all_notes(&records));
    cases.extend([words, words - 1].map(|index| subject.read_in(&all_notes, index)));
    for place in [0, records.len() / 2, records.len()] {
        for kind in [FIRST_NOTE, u16::MAX] {
            cases.push(subject.read(&with(&records, place, note(kind, Vec::new()))));
        }
    }
    let inside = joined(&records[..1]);
    cases.push(subject.read(&with(&records, 0, note(u16::MAX, vec![0xff; LONG_BODY]))));
    cases.push(subject.read(&with(&records, records.len(), note(FIRST_NOTE, inside))));
    cases
}

/// Cuts at a record's start, and inside its length, kind and body.
fn cuts(subject: &Subject) -> Vec<Vec<u8>> {
    let records = subject.records();
    let file = joined(&records);
    let inside = [0, 1, LENGTH, LENGTH + 1, LENGTH + KIND + 1];
    let ends =
        starts(&records).into_iter().zip(inside.into_iter().cycle()).flat_map(|(start, more)| [start, start + more]);
    ends.filter(|&end| end < file.len()).map(|end| subject.read(&file[..end])).collect()
}

/// A flipped bit in each list's body.
fn flips(subject: &Subject) -> Vec<Vec<u8>> {
    let records = subject.records();
    let mut cases = Vec::new();
    for place in (0..records.len()).filter(|&place| !records[place].body.is_empty()) {
        let file = changed(&records, |records| {
            let body = &mut records[place].body;
            let byte = (place * NUMBER + place) % body.len();
            body[byte] ^= 1 << (place % 8);
        });
        cases.push(subject.read(&file));
    }
    cases
}

/// Every list with a number more, a number less and a byte more.
fn other_lengths(subject: &Subject) -> Vec<Vec<u8>> {
    let records = subject.records();
    let mut cases = Vec::new();
    let mut ask = |change: &dyn Fn(&mut Vec<Record>)| cases.push(subject.read(&changed(&records, change)));
    for place in 0..records.len() {
        ask(&|records| records[place].body.extend([0; NUMBER]));
        ask(&|records| records[place].body.push(0));
        if !records[place].body.is_empty() {
            ask(&|records| drop(records[place].body.drain(..NUMBER)));
        }
    }
    cases
}

/// Every record twice, missing, of another width's kind, and exchanged with the one before it.
fn other_turns(subject: &Subject) -> Vec<Vec<u8>> {
    let records = subject.records();
    let mut cases = Vec::new();
    let mut ask = |change: &dyn Fn(&mut Vec<Record>)| cases.push(subject.read(&changed(&records, change)));
    for place in 0..records.len() {
        ask(&|records| records.insert(place, records[place].clone()));
        ask(&|records| drop(records.remove(place)));
        ask(&|records| records[place].kind += OTHER_WIDTH);
        if place > 0 {
            ask(&|records| records.swap(place - 1, place));
        }
    }
    ask(&|records| records.reverse());
    cases
}

/// Records of other kinds, lengths at the edges, and bytes behind.
fn wrong_records(subject: &Subject) -> Vec<Vec<u8>> {
    let records = subject.records();
    let file = joined(&records);
    let mut files = Vec::new();
    for place in [0, 7, records.len()] {
        for kind in NO_KINDS.into_iter().chain([5]) {
            files.extend([0, 3, 4].map(|size| with(&records, place, note(kind, vec![0; size]))));
        }
    }
    let heads = starts(&records);
    for start in [heads[0], heads[7], heads[15]] {
        for length in LENGTHS {
            let mut bytes = file.clone();
            bytes[start..start + LENGTH].copy_from_slice(&length.to_le_bytes());
            files.push(bytes);
        }
    }
    for behind in 1..=LENGTH + KIND {
        files.extend([0, 1, 0xff].map(|byte| [&file[..], &vec![byte; behind]].concat()));
    }
    files.iter().map(|file| subject.read(file)).collect()
}

/// Nothing, notes alone, notes cut short, and more than one thing wrong: the first question that has a no is told.
fn mixed(subject: &Subject) -> Vec<Vec<u8>> {
    let records = subject.records();
    let notes = with_all_notes(&[]);
    let noted = joined(&with_all_notes(&records));
    let behind = with(&records, records.len(), note(FIRST_NOTE, vec![1, 2, 3]));
    let other = changed(&records, |records| records[0].body[0] ^= 1);
    let missing = changed(&records, |records| {
        records[0].body[0] ^= 1;
        records.pop();
    });
    let odd = changed(&records, |records| {
        records[0].body[0] ^= 1;
        records[1].kind = 17;
        records[15].body.push(0);
    });
    let files = [&[][..], &joined(&notes), &joined(&[note(u16::MAX, vec![0; LONG_BODY])])];
    let mut cases: Vec<_> = files.iter().map(|file| subject.read(file)).collect();
    cases.extend((1..LENGTH + KIND).map(|less| subject.read(&noted[..noted.len() - less])));
    cases.extend((1..=LENGTH + KIND + 3).map(|less| subject.read(&behind[..behind.len() - less])));
    for file in [&other, &missing, &odd] {
        cases.extend([subject.words(), 0].map(|index| subject.read_in(file, index)));
    }
    cases.push(subject.read(&[&other[..], &[0]].concat()));
    cases.push(subject.read(&[&missing[..], &[0]].concat()));
    cases
}

/// Matrices that have a no at 1 to 5, some at a later one too.
fn refused() -> Result<Vec<Subject>, String> {
    let one = Matrix::from_rows(1, &[vec![0]]);
    let of = |m: usize, n: usize, offsets: &[u32], columns: &[u32]| {
        Subject::new(Matrix { m, n, offsets: offsets.to_vec(), columns: columns.to_vec() })
    };
    [
        of(0, 1, &[0], &[]),
        of(257, 0, &one.offsets, &one.columns),
        of(1, 0, &one.offsets, &one.columns),
        of(1, 1025, &one.offsets, &one.columns),
        of(1, 1, &[1, 1], &[0]),
        of(1, 1, &[0, 2], &[0]),
        of(1, 1, &[0, 1, 1], &[0]),
        of(1, 1, &[], &[]),
        of(2, 1, &[0, 1, 1], &[1]),
        of(2, 1, &[0, 0, 1], &[0]),
        of(2, 2, &[0, 1, 3], &[0, 1, 1]),
        of(1, 1, &[0, 1], &[1]),
    ]
    .into_iter()
    .collect()
}

fn named() -> Result<Vec<Subject>, String> {
    [
        Subject::of_rows(1, &[&[0]]),
        Subject::of_rows(2, &[&[0, 1], &[0], &[1]]),
        Subject::of_rows(2, &[&[0], &[1], &[0, 1]]),
        Subject::of_rows(3, &[&[0, 1], &[1, 2], &[0], &[2]]),
    ]
    .into_iter()
    .collect()
}

pub fn file_cases(random: &mut Random) -> Result<Vec<Vec<u8>>, String> {
    let mut subjects = named()?;
    for _ in 0..RANDOM_MATRICES {
        let (m, n) = (random.between(1, 4), random.between(1, 4));
        subjects.push(Subject::new(generate::matrix(random, m, n, 3))?);
    }
    let mut cases: Vec<Vec<u8>> = subjects.iter().flat_map(good).collect();
    let files: Vec<Vec<u8>> = subjects.iter().map(|subject| joined(&subject.records())).collect();
    for (subject, own) in subjects.iter().zip(&files) {
        cases.extend(files.iter().filter(|&file| file != own).map(|file| subject.read(file)));
    }
    let one = &subjects[0];
    cases.extend((0..files[0].len()).map(|end| one.read(&files[0][..end])));
    cases.extend(subjects[1..4].iter().flat_map(cuts));
    cases.extend(subjects[..4].iter().flat_map(flips));
    cases.extend([one, &subjects[2]].into_iter().flat_map(other_lengths));
    for wrong in [other_turns, wrong_records, mixed] {
        cases.extend(wrong(one));
    }
    for subject in refused()? {
        cases.extend([&files[0][..], &files[1], &[0]].map(|file| subject.read(file)));
        cases.extend([subject.write(SPARE, SPARE), subject.write(0, 0)]);
    }
    Ok(cases)
}
