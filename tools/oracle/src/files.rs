//! Files that only the static library can be given: whole ones with notes around their records, ones with something
//! wrong, and bytes of any kind. Each is read, and lent to a solve; questions 14 to 16 are asked in `decide.rs`.

use crate::compare::Comparison;
use crate::decide::{Listed, ask_listed, read_plan, write_plan};
use crate::file::{FIRST_NOTE, KIND, LENGTH, NUMBER, Record, SMALL_BODY, joined, listed, starts, with_all_notes};
use crate::fractions::{short_rooms, wrong_before};
use crate::generate;
use crate::library::{Filing, SPARE, enough, read_in, solve_filed, write_in};
use crate::plan::Lists;
use crate::problem::{Answer, Fractions, Matrix, Problem, Refusal};
use crate::questions::{Room, ask_matrix};
use crate::random::Random;
use crate::reference;
use crate::rooms::{exact, vary};
use crate::rust;

/// Flags that say that there is a file: small, and with nothing in their low bits.
const FLAGS: [usize; 7] = [1, 2, 1 << 8, 1 << 16, 1 << 32, 1 << 63, usize::MAX];

/// Kinds at the edges: no list and no note, the first and last notes, and lists of another width.
const KINDS: [u16; 14] =
    [0, 1, 2, 15, 16, 17, 255, 256, 257, 258, FIRST_NOTE - 1, FIRST_NOTE, FIRST_NOTE + 1, u16::MAX];

/// Lengths at the edges.
const LENGTHS: [u32; 10] = [0, 1, 2, 3, 4, 6, 1 << 16, 1 << 31, u32::MAX - 3, u32::MAX];

const RANDOM_BYTES: usize = 200;
const RANDOM_RECORDS: usize = 24;

/// How many changes are made to a file at most, when several are.
const MOST_CHANGES: usize = 4;
/// How many random files of each kind a problem is given.
const OF_EACH: usize = 2;

/// A problem, the Rust's lists of its matrix or the no at 1 to 5, and its answer without a file.
struct Subject {
    problem: Problem,
    lists: Listed,
    plain: Answer,
}

impl Subject {
    fn new(problem: Problem) -> Self {
        let lists = ask_matrix(&problem.matrix, None).map(|()| rust::lists(&problem.matrix));
        let plain = reference::run(&problem, enough(&problem)).answer;
        Subject { problem, lists, plain }
    }

    /// The records that a writer gives; none where the matrix is refused.
    fn records(&self) -> Vec<Record> {
        self.lists.as_ref().map(listed).unwrap_or_default()
    }

    fn ask(&self, file: &[u8]) -> Result<&Lists, Refusal> {
        ask_listed(&self.lists, file)
    }

    /// W; 0 where the matrix is refused.
    fn words(&self) -> usize {
        self.lists.as_ref().map_or(0, |lists| lists.iter().map(Vec::len).sum())
    }

    /// Questions 1 to 5 with the number of values, 14 to 16, and then what a solve without a file has.
    fn solve(&self, file: &[u8], otherwise: Answer) -> Answer {
        let matrix = ask_matrix(&self.problem.matrix, Some(self.problem.values.len()));
        match matrix.and_then(|()| self.ask(file).map(|_| ())) {
            Ok(()) => otherwise,
            Err(no) => Answer::Refused(no),
        }
    }
}

/// One file: read in enough, just enough and too little memory; lent to a solve; and lent with a flag of 0.
fn compare_file(comparison: &mut Comparison, random: &mut Random, kind: &str, subject: &Subject, file: &[u8]) {
    let problem = &subject.problem;
    let asked = subject.ask(file);
    comparison.count(format!("files, kind: {kind}"));
    comparison.count(match asked {
        Ok(_) => "files, answers: yes".into(),
        Err(no) => format!("files, answers: refused {:02}", no.question),
    });
    let words = subject.words();
    for index in [words + SPARE, words, words.saturating_sub(1), 0] {
        compare_read(comparison, subject, file, index);
    }
    let room = enough(problem);
    let flag = random.pick(&FLAGS);
    compare_solve(comparison, problem, Filing { flag, bytes: file }, room, &subject.solve(file, subject.plain.clone()));
    compare_solve(comparison, problem, Filing { flag: 0, bytes: file }, room, &subject.plain);
    let short = Room { index: words.saturating_sub(1), ..room };
    let refused = reference::run(problem, short).answer;
    compare_solve(comparison, problem, Filing { flag, bytes: file }, short, &subject.solve(file, refused));
}

fn compare_read(comparison: &mut Comparison, subject: &Subject, file: &[u8], index: usize) {
    let wanted = read_plan(&subject.lists, file, index);
    comparison.count("files read: static library");
    match read_in(&subject.problem.matrix, file, index) {
        Ok(told) if told == wanted => {}
        other => {
            let matrix = &subject.problem.matrix;
            comparison.differ(format!("read {other:?}, wanted {wanted:?}: {index} words, {file:02x?} {matrix:?}"));
        }
    }
}

fn compare_write(comparison: &mut Comparison, subject: &Subject, index: usize, bytes: usize) {
    let wanted = write_plan(&subject.lists, index, bytes);
    comparison.count("files written with lengths varied: static library");
    match write_in(&subject.problem.matrix, index, bytes) {
        Ok(told) if told == wanted => {}
        other => {
            let matrix = &subject.problem.matrix;
            comparison.differ(format!("written {other:?}, wanted {wanted:?}: {index} words, {bytes} bytes {matrix:?}"));
        }
    }
}

fn compare_solve(comparison: &mut Comparison, problem: &Problem, file: Filing<'_>, room: Room, wanted: &Answer) {
    comparison.count(match file.flag {
        0 => "files in solves, not lent: static library".into(),
        _ => format!("files in solves, lent, answers: {}", wanted.kind()),
    });
    match solve_filed(problem, file, room) {
        Ok(told) if told == *wanted => {}
        other => comparison.differ(format!("solve {other:?}, wanted {wanted:?}: {file:02x?} {room:?} {problem:?}")),
    }
}

fn any_bytes(random: &mut Random, most: usize) -> Vec<u8> {
    (0..random.between(0, most)).map(|_| random.below(256) as u8).collect()
}

/// A kind at the edges, or any.
fn any_kind(random: &mut Random) -> u16 {
    if random.once_in(3) { random.next() as u16 } else { random.pick(&KINDS) }
}

/// A note with a body of any bytes, or of a record's.
fn any_note(random: &mut Random, records: &[Record]) -> Record {
    let any = FIRST_NOTE | random.next() as u16;
    let kind = random.pick(&[FIRST_NOTE, FIRST_NOTE + 1, u16::MAX, any]);
    let body = match random.below(3) {
        0 if !records.is_empty() => joined(&records[random.below(records.len())..][..1]),
        _ => any_bytes(random, SMALL_BODY),
    };
    Record { kind, body }
}

/// Up to so many notes, each in any gap.
fn with_notes(random: &mut Random, records: &[Record], most: usize) -> Vec<Record> {
    let mut noted = records.to_vec();
    for _ in 0..random.between(1, most) {
        let note = any_note(random, records);
        noted.insert(random.below(noted.len() + 1), note);
    }
    noted
}

/// Something done to records that are at least one.
type Change = fn(&mut Random, &mut Vec<Record>);

const CHANGES: [(&str, Change); 11] = [
    ("records swapped", |random, records| {
        let (first, second) = (random.below(records.len()), random.below(records.len()));
        records.swap(first, second);
    }),
    ("a record twice", |random, records| {
        let record = records[random.below(records.len())].clone();
        records.insert(random.below(records.len() + 1), record);
    }),
    ("a record dropped", |random, records| {
        records.remove(random.below(records.len()));
    }),
    ("the last records dropped", |random, records| records.truncate(random.below(records.len()))),
    ("a record of another kind", |random, records| any_of(random, records).kind = any_kind(random)),
    ("a number more", |random, records| {
        let number = (random.next() as u32 >> random.below(32)).to_le_bytes();
        any_of(random, records).body.extend(number);
    }),
    ("a number less", |random, records| {
        let body = &mut any_of(random, records).body;
        body.truncate(body.len().saturating_sub(NUMBER));
    }),
    ("a byte more or less", |random, records| {
        let body = &mut any_of(random, records).body;
        if random.once_in(2) { body.push(0) } else { body.truncate(body.len().saturating_sub(1)) }
    }),
    ("another number", |random, records| {
        let body = &mut any_of(random, records).body;
        if body.len() >= NUMBER {
            let place = NUMBER * random.below(body.len() / NUMBER);
            let number = (random.next() as u32 >> random.below(32)).to_le_bytes();
            body[place..place + NUMBER].copy_from_slice(&number);
        }
    }),
    ("a list in two records", |random, records| {
        let place = random.below(records.len());
        let half = records[place].body.len() / NUMBER / 2 * NUMBER;
        let rest = Record { kind: records[place].kind, body: records[place].body.split_off(half) };
        records.insert(place + 1, rest);
    }),
    ("a record more", |random, records| {
        let record = Record { kind: any_kind(random), body: any_bytes(random, SMALL_BODY) };
        records.insert(random.below(records.len() + 1), record);
    }),
];

fn any_of<'a>(random: &mut Random, records: &'a mut [Record]) -> &'a mut Record {
    let place = random.below(records.len());
    &mut records[place]
}

/// Something done to bytes that are at least one; `heads` are the places where records began.
type ByteChange = fn(&mut Random, &mut Vec<u8>, heads: &[usize]);

const BYTE_CHANGES: [(&str, ByteChange); 6] = [
    ("bytes cut off", |random, bytes, _| bytes.truncate(random.below(bytes.len()))),
    ("a flipped bit", |random, bytes, _| {
        let place = random.below(bytes.len());
        bytes[place] ^= 1 << random.below(8);
    }),
    ("another byte", |random, bytes, _| {
        let place = random.below(bytes.len());
        bytes[place] = random.next() as u8;
    }),
    ("bytes behind", |random, bytes, _| {
        let zeros = random.once_in(2);
        let behind = any_bytes(random, SMALL_BODY);
        bytes.extend(behind.iter().map(|&byte| if zeros { 0 } else { byte }));
    }),
    ("a byte taken out or put in", |random, bytes, _| {
        let place = random.below(bytes.len());
        match random.below(2) {
            0 => bytes.insert(place, random.next() as u8),
            _ => _ = bytes.remove(place),
        }
    }),
    ("another length", |random, bytes, heads| {
        let place = random.pick(heads);
        let near = u32::from_le_bytes(bytes[place..place + LENGTH].try_into().expect("a length"));
        let choices = [near.wrapping_add(1), near.wrapping_sub(1), near.wrapping_add(4), near.wrapping_sub(4)];
        let length = random.pick(&[&LENGTHS[..], &choices].concat());
        bytes[place..place + LENGTH].copy_from_slice(&length.to_le_bytes());
    }),
];

/// Changes of both kinds, so that more than one question may have a no.
fn changed_often(random: &mut Random, records: &[Record]) -> Vec<u8> {
    let mut records = records.to_vec();
    for _ in 0..random.between(1, MOST_CHANGES) {
        if !records.is_empty() {
            random.pick(&CHANGES).1(random, &mut records);
        }
    }
    let mut bytes = joined(&records);
    if !bytes.is_empty() && random.once_in(2) {
        random.pick(&BYTE_CHANGES).1(random, &mut bytes, &starts(&records));
    }
    bytes
}

fn random_records(random: &mut Random) -> Vec<u8> {
    let record = |random: &mut Random| Record { kind: any_kind(random), body: any_bytes(random, SMALL_BODY) };
    let count = random.between(1, RANDOM_RECORDS);
    joined(&(0..count).map(|_| record(random)).collect::<Vec<_>>())
}

/// Matrices that are nearly this one, and some of its size.
fn others(random: &mut Random, matrix: &Matrix) -> Vec<Matrix> {
    let rows: Vec<Vec<usize>> =
        (0..matrix.m).map(|i| matrix.row(i).iter().map(|&column| column as usize).collect()).collect();
    let with = |change: &dyn Fn(&mut Vec<Vec<usize>>)| {
        let mut rows = rows.clone();
        change(&mut rows);
        Matrix::from_rows(matrix.n, &rows)
    };
    vec![
        Matrix { n: matrix.n + 1, ..matrix.clone() },
        with(&|rows| rows.reverse()),
        with(&|rows| rows.push(rows[0].clone())),
        with(&|rows| rows[0] = (0..matrix.n).collect()),
        with(&|rows| rows.iter_mut().for_each(|row| row.truncate(1))),
        generate::matrix(random, matrix.m, matrix.n, 3),
        generate::solvable(random, 6, 6).matrix,
    ]
}

/// Every cut, every flipped bit, every kind and length at the edges in every head, and every small record in every gap.
fn compare_every(comparison: &mut Comparison, random: &mut Random, subject: &Subject, records: &[Record]) {
    let whole = joined(records);
    let mut ask = |kind: &str, bytes: &[u8]| compare_file(comparison, random, kind, subject, bytes);
    (0..=whole.len()).for_each(|end| ask("every cut", &whole[..end]));
    for place in 0..whole.len() {
        for bit in 0..8 {
            let mut bytes = whole.clone();
            bytes[place] ^= 1 << bit;
            ask("every flipped bit", &bytes);
        }
    }
    for (place, start) in starts(records).into_iter().enumerate() {
        for kind in KINDS {
            let mut changed = records.to_vec();
            changed[place].kind = kind;
            ask("every kind in every place", &joined(&changed));
        }
        for length in LENGTHS {
            let mut bytes = whole.clone();
            bytes[start..start + LENGTH].copy_from_slice(&length.to_le_bytes());
            ask("every length in every place", &bytes);
        }
    }
    for gap in 0..=records.len() {
        for kind in KINDS {
            for size in 0..=NUMBER + 1 {
                let mut more = records.to_vec();
                more.insert(gap, Record { kind, body: vec![0; size] });
                ask("a small record in every gap", &joined(&more));
            }
        }
    }
    for behind in 1..=SMALL_BODY {
        ask("zeros behind", &[&whole[..], &vec![0; behind]].concat());
    }
}

/// Files of the problem's matrix, whole or with something wrong, and others.
fn compare_random(comparison: &mut Comparison, random: &mut Random, subject: &Subject) {
    let written = subject.records();
    compare_file(comparison, random, "as written", subject, &joined(&written));
    compare_file(comparison, random, "none of any bytes", subject, &[]);
    compare_file(comparison, random, "a note in every gap", subject, &joined(&with_all_notes(&written)));
    for other in others(random, &subject.problem.matrix) {
        let records = ask_matrix(&other, None).map(|()| listed(&rust::lists(&other))).unwrap_or_default();
        compare_file(comparison, random, "another matrix's", subject, &joined(&records));
    }
    for _ in 0..OF_EACH {
        let notes = with_notes(random, &[], RANDOM_RECORDS);
        compare_file(comparison, random, "notes alone", subject, &joined(&notes));
        let noted = with_notes(random, &written, RANDOM_RECORDS);
        compare_file(comparison, random, "notes in random gaps", subject, &joined(&noted));
        let bytes = any_bytes(random, RANDOM_BYTES);
        compare_file(comparison, random, "random bytes", subject, &bytes);
        let bytes = random_records(random);
        compare_file(comparison, random, "random records", subject, &bytes);
        let records = if random.once_in(2) { &noted } else { &written };
        for (kind, change) in CHANGES {
            let mut records = records.clone();
            change(random, &mut records);
            compare_file(comparison, random, kind, subject, &joined(&records));
        }
        for (kind, change) in BYTE_CHANGES {
            let mut bytes = joined(records);
            change(random, &mut bytes, &starts(records));
            compare_file(comparison, random, kind, subject, &bytes);
        }
        let bytes = changed_often(random, records);
        compare_file(comparison, random, "several changes", subject, &bytes);
    }
}

/// Everything else about a solve wrong too, at random: questions 1 to 5 before those about the file, 6 to 13 after.
fn compare_varied(comparison: &mut Comparison, random: &mut Random) {
    let mut problem = if random.once_in(4) { generate::wrong(random) } else { generate::solvable(random, 4, 4) };
    let file = match Subject::new(problem.clone()).records() {
        records if records.is_empty() || random.once_in(8) => random_records(random),
        records if random.once_in(2) => joined(&with_notes(random, &records, SMALL_BODY)),
        records => changed_often(random, &records),
    };
    let room = vary(random, &mut problem);
    match random.below(6) {
        0 => problem.limit = 0,
        1 => problem.fractions.centring = f64::NAN,
        _ => {}
    }
    compare_lent(comparison, random, "with lengths and more varied", problem, room, &file);
}

/// A problem of any kind with a file in any memory.
fn compare_lent(c: &mut Comparison, random: &mut Random, kind: &str, problem: Problem, room: Room, file: &[u8]) {
    let subject = Subject::new(problem);
    let wanted = subject.solve(file, reference::run(&subject.problem, room).answer);
    c.count(format!("files, kind: {kind}"));
    compare_solve(c, &subject.problem, Filing { flag: random.pick(&FLAGS), bytes: file }, room, &wanted);
    compare_read(c, &subject, file, room.index);
    compare_write(c, &subject, room.index, file.len());
}

/// A file with a yes, and with a no at 14, 15 and 16, where each other question has a no too.
fn compare_with_noes(comparison: &mut Comparison, random: &mut Random, problem: &Problem) {
    let records = Subject::new(problem.clone()).records();
    let whole = joined(&records);
    let mut other = whole.clone();
    other[LENGTH + KIND] ^= 1;
    let files = [&whole, &whole[..whole.len() - 1], &joined(&records[1..]), &other];
    let mut wrong = wrong_before(problem);
    wrong.push(Problem { fractions: Fractions { centring: f64::NAN, damping: f64::NAN }, ..problem.clone() });
    let rooms = short_rooms(exact(problem)).map(|room| (problem.clone(), room));
    for (problem, room) in wrong.into_iter().map(|wrong| (wrong.clone(), exact(&wrong))).chain(rooms) {
        for file in files {
            compare_lent(comparison, random, "with another no", problem.clone(), room, file);
        }
    }
}

/// Files of large matrices: read alone.
fn compare_large(comparison: &mut Comparison, random: &mut Random) {
    let problem = Problem { matrix: generate::large_matrix(random), ..Problem::default() };
    let subject = Subject::new(problem);
    let written = subject.records();
    let mut changed = written.clone();
    let (kind, change) = random.pick(&CHANGES);
    change(random, &mut changed);
    let mut flipped = joined(&written);
    let place = random.below(flipped.len());
    flipped[place] ^= 1 << random.below(8);
    let words = subject.words();
    for (kind, file) in [
        ("as written", joined(&written)),
        ("a note in every gap", joined(&with_all_notes(&written))),
        ("a flipped bit", flipped),
        (kind, joined(&changed)),
    ] {
        comparison.count(format!("files, kind: large, {kind}"));
        compare_read(comparison, &subject, &file, words);
        compare_read(comparison, &subject, &file, words - 1);
    }
}

/// The four matrices whose files have known lengths, done at test 1.
fn small() -> [Problem; 4] {
    let of_rows = |n: usize, rows: &[&[usize]]| {
        let rows: Vec<Vec<usize>> = rows.iter().map(|row| row.to_vec()).collect();
        let matrix = Matrix::from_rows(n, &rows);
        let (m, t) = (matrix.m, matrix.entries());
        Problem { matrix, ..generate::sized(m, n, t, 1e9) }
    };
    [
        of_rows(1, &[&[0]]),
        of_rows(2, &[&[0, 1], &[0], &[1]]),
        of_rows(2, &[&[0], &[1], &[0, 1]]),
        of_rows(3, &[&[0, 1], &[1, 2], &[0], &[2]]),
    ]
}

pub fn compare(comparison: &mut Comparison, random: &mut Random, scale: usize) {
    for problem in small() {
        compare_with_noes(comparison, random, &problem);
        let subject = Subject::new(problem);
        let written = subject.records();
        compare_every(comparison, random, &subject, &written);
        compare_every(comparison, random, &subject, &with_all_notes(&written));
    }
    for _ in 0..scale {
        let kinds = generate::each_kind(random);
        let (_, problem) = &kinds[random.below(kinds.len())];
        compare_random(comparison, random, &Subject::new(problem.clone()));
        (0..OF_EACH).for_each(|_| compare_varied(comparison, random));
    }
    for _ in 0..scale / 100 {
        compare_large(comparison, random);
    }
}
