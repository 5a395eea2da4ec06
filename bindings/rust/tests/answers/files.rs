//! Plans written to bytes and read from them, and questions 14 to 16.

use ipm::library::{self, Answer, Matrix, Sides, Sizes};
use ipm::{LANES, Plan, Refusal, Tolerances};

use super::sizes::{known, of_rows, refused_at};
use super::{Memory, entries, limit, three_rows, three_rows_matrix};

/// The bytes of the files of the four known matrices.
const KNOWN_BYTES: [usize; 4] = [172, 416, 380, 568];

const FIRST_NOTE: u16 = 0x8000;
/// The bytes of a record's length, and of its length and kind.
const LENGTH: usize = 4;
const HEAD: usize = 6;

/// What unwritten memory holds, and how much is lent past the need.
const WORD: u32 = 0xdead_beef;
const BYTE: u8 = 0xa5;
const SPARE: usize = 3;

fn told(place: usize) -> Answer {
    Answer { length: 0, question: 0, place: place as u32, lane: 0 }
}

fn record(kind: u16, body: &[u8]) -> Vec<u8> {
    let length = (HEAD - LENGTH + body.len()) as u32;
    [&length.to_le_bytes()[..], &kind.to_le_bytes(), body].concat()
}

/// The records of a whole file.
fn records(file: &[u8]) -> Vec<Vec<u8>> {
    let mut rest = file;
    let mut all = Vec::new();
    while let Some(length) = rest.first_chunk::<LENGTH>() {
        let (record, others) = rest.split_at(LENGTH + u32::from_le_bytes(*length) as usize);
        all.push(record.to_vec());
        rest = others;
    }
    all
}

/// The plan and the file in memory that has room for more, all that is past them as it was.
fn written(matrix: &Matrix) -> (Vec<u32>, Vec<u8>) {
    let words = library::sizes(matrix).expect("a right matrix").words;
    let bytes = library::file_bytes(words);
    let (mut index, mut file) = (vec![WORD; words + SPARE], vec![BYTE; bytes + SPARE]);
    assert_eq!(library::write_plan(matrix, &mut index, &mut file), told(bytes));
    assert_eq!((&index[words..], &file[bytes..]), (&[WORD; SPARE][..], &[BYTE; SPARE][..]));
    index.truncate(words);
    file.truncate(bytes);
    (index, file)
}

/// The answer of reading, and that of a solve with the file, each of which leaves all memory on a no.
fn asked(matrix: &Matrix, file: &[u8]) -> Answer {
    let words = library::sizes(matrix).expect("a right matrix").words;
    let mut index = vec![WORD; words];
    let answer = library::read_plan(matrix, file, &mut index);
    let solved = solved(matrix, Some(file), words);
    if answer.question == 0 {
        assert_eq!(answer, told(words));
        assert_eq!(solved, self::solved(matrix, None, words));
    } else {
        assert_eq!(index, vec![WORD; words]);
        assert_eq!(solved, (answer, None));
    }
    answer
}

/// A solve that is done at test 1, and the memory if it was changed.
fn solved(matrix: &Matrix, file: Option<&[u8]>, words: usize) -> (Answer, Option<Memory>) {
    let matrix = Matrix { values: vec![1.0; matrix.columns.len()], ..matrix.clone() };
    let (b, c) = (vec![1.0; LANES * matrix.m], vec![1.0; LANES * matrix.n]);
    let mut memory = Memory::new(c.len(), b.len());
    memory.index.resize(words, WORD);
    let before = memory.clone();
    let answer = memory.solve(&matrix, Sides { b: &b, c: &c, tolerances: &[1e9; 3 * LANES], limit: 1, file });
    (answer, (memory != before).then_some(memory))
}

#[test]
fn known_matrices_have_files_of_known_lengths() {
    for ((matrix, Sizes { words, .. }), bytes) in known().into_iter().zip(KNOWN_BYTES) {
        assert_eq!(library::file_bytes(words), bytes);
        let (index, file) = written(&matrix);
        let mut plan = vec![WORD; words];
        assert_eq!(library::plan(&matrix, &mut plan), told(words));
        assert_eq!(index, plan);
        assert_eq!(records(&file).len(), 16);
    }
}

/// One row and one column: each list is at most two numbers.
#[test]
fn the_smallest_file_is_known_byte_by_byte() {
    let lists: [&[u32]; 16] =
        [&[0, 1], &[0], &[0], &[0], &[0, 0], &[], &[], &[0, 1], &[0], &[0], &[0, 1], &[0], &[0], &[0, 1], &[0], &[0]];
    let body = |list: &[u32]| list.iter().flat_map(|word| word.to_le_bytes()).collect::<Vec<u8>>();
    let wanted: Vec<u8> = (1..).zip(lists).flat_map(|(kind, list)| record(kind, &body(list))).collect();
    assert_eq!(written(&of_rows(1, &[&[0]])).1, wanted);
}

#[test]
fn writing_asks_6_and_then_8_and_leaves_both_memories() {
    for (matrix, Sizes { words, .. }) in known() {
        let bytes = library::file_bytes(words);
        for (index_len, file_len, question) in [
            (words - 1, bytes, 6),
            (words - 1, bytes - 1, 6),
            (0, 0, 6),
            (words, bytes - 1, 8),
            (words + SPARE, bytes - 1, 8),
            (words, 0, 8),
        ] {
            let (mut index, mut file) = (vec![WORD; index_len], vec![BYTE; file_len]);
            assert_eq!(library::write_plan(&matrix, &mut index, &mut file), refused_at(question, 0));
            assert_eq!((index, file), (vec![WORD; index_len], vec![BYTE; file_len]));
        }
    }
}

#[test]
fn reading_leaves_what_plan_leaves() {
    for (matrix, Sizes { words, .. }) in known() {
        let (plan, file) = written(&matrix);
        let mut index = vec![WORD; words + SPARE];
        assert_eq!(library::read_plan(&matrix, &file, &mut index), told(words));
        assert_eq!((&index[..words], &index[words..]), (&plan[..], &[WORD; SPARE][..]));
    }
}

#[test]
fn notes_may_stand_in_every_gap() {
    for (matrix, Sizes { words, .. }) in known() {
        let lists = records(&written(&matrix).1);
        let notes = [record(FIRST_NOTE, &[]), record(FIRST_NOTE + 1, &[7; 3]), record(u16::MAX, &lists[0])];
        for note in notes {
            for gap in 0..=lists.len() {
                let mut noted = lists.clone();
                noted.insert(gap, note.clone());
                assert_eq!(asked(&matrix, &noted.concat()), told(words), "gap {gap}");
            }
            let everywhere = [note.clone(), lists.iter().flat_map(|list| [&list[..], &note].concat()).collect()];
            assert_eq!(asked(&matrix, &everywhere.concat()), told(words));
        }
    }
}

#[test]
fn every_cut_is_refused_at_14_or_15() {
    for (matrix, _) in known() {
        let file = written(&matrix).1;
        let ends: Vec<usize> =
            records(&file).iter().scan(0, |end, record| Some(std::mem::replace(end, *end + record.len()))).collect();
        for end in 0..file.len() {
            let question = if ends.contains(&end) { 15 } else { 14 };
            assert_eq!(asked(&matrix, &file[..end]), refused_at(question, 0), "{end} bytes");
        }
    }
}

#[test]
fn every_flipped_bit_of_a_list_is_refused_at_16() {
    for (matrix, _) in known() {
        let lists = records(&written(&matrix).1);
        for list in 0..lists.len() {
            for bit in 8 * HEAD..8 * lists[list].len() {
                let mut flipped = lists.clone();
                flipped[list][bit / 8] ^= 1 << (bit % 8);
                assert_eq!(asked(&matrix, &flipped.concat()), refused_at(16, 0), "list {list}, bit {bit}");
            }
        }
    }
}

#[test]
fn the_file_of_another_matrix_is_refused_at_16() {
    for (k, (matrix, _)) in known().into_iter().enumerate() {
        for (other, (theirs, _)) in known().into_iter().enumerate() {
            if k != other {
                assert_eq!(asked(&matrix, &written(&theirs).1), refused_at(16, 0), "{k} and {other}");
            }
        }
    }
}

#[test]
fn a_list_of_another_length_is_refused_at_16() {
    for (matrix, _) in known() {
        let lists = records(&written(&matrix).1);
        for list in 0..lists.len() {
            let kind = list as u16 + 1;
            let body = &lists[list][HEAD..];
            let more = record(kind, &[body, &[0; 4]].concat());
            let less = record(kind, &body[..body.len().saturating_sub(4)]);
            for other in [more, less].into_iter().filter(|other| *other != lists[list]) {
                let changed = [&lists[..list], &[other], &lists[list + 1..]].concat();
                assert_eq!(asked(&matrix, &changed.concat()), refused_at(16, 0), "list {list}");
            }
        }
    }
}

/// Kinds, lengths and bodies at the edges, with all lists behind them.
#[test]
fn questions_14_and_15_part_at_the_edges() {
    let matrix = three_rows_matrix();
    let file = written(&matrix).1;
    let after = |front: &[u8]| asked(&matrix, &[front, &file[..]].concat()).question;
    for (kind, size, question) in [
        (17, 3, 15),
        (5, 3, 14),
        (5, 4, 15),
        (16, 1, 14),
        (16, 0, 15),
        (0, 0, 15),
        (0, 1, 15),
        (257, 2, 15),
        (258, 4, 15),
        (FIRST_NOTE - 1, 0, 15),
        (FIRST_NOTE, 1, 0),
        (FIRST_NOTE + 1, 2, 0),
        (u16::MAX, 3, 0),
    ] {
        assert_eq!(after(&record(kind, &vec![0; size])), question, "kind {kind}, {size} bytes");
    }
    for length in [0, 1, u32::MAX - 3, u32::MAX] {
        assert_eq!(after(&length.to_le_bytes()), 14, "length {length}");
    }
}

/// 14 is asked of the whole file before 15, and 15 before 16.
#[test]
fn each_question_is_asked_of_the_whole_file() {
    let matrix = three_rows_matrix();
    let file = written(&matrix).1;
    let mut other_number = file.clone();
    other_number[HEAD] ^= 1;
    assert_eq!(asked(&matrix, &other_number), refused_at(16, 0));
    let stranger = record(17, &[]);
    assert_eq!(asked(&matrix, &[&other_number[..], &stranger].concat()), refused_at(15, 0));
    for behind in 1..=5 {
        assert_eq!(asked(&matrix, &[&stranger[..], &file, &vec![0; behind]].concat()), refused_at(14, 0));
        assert_eq!(asked(&matrix, &[&file[..], &vec![0; behind]].concat()), refused_at(14, 0));
    }
}

#[test]
fn an_empty_file_and_notes_alone_are_refused_at_15() {
    for (matrix, _) in known() {
        assert_eq!(asked(&matrix, &[]), refused_at(15, 0));
        assert_eq!(asked(&matrix, &record(FIRST_NOTE, b"a note")), refused_at(15, 0));
    }
}

#[test]
fn a_short_index_memory_is_asked_about_after_the_file() {
    for (matrix, Sizes { words, .. }) in known() {
        let good = written(&matrix).1;
        let mut bad = good.clone();
        bad[HEAD] ^= 1;
        for (file, question) in [(&good, 6), (&bad, 16)] {
            for short in [words - 1, 0] {
                let mut index = vec![WORD; short];
                assert_eq!(library::read_plan(&matrix, file, &mut index), refused_at(question, 0));
                assert_eq!(index, vec![WORD; short]);
                assert_eq!(solved(&matrix, Some(file), short), (refused_at(question, 0), None));
            }
        }
    }
}

#[test]
fn a_matrix_is_asked_about_before_the_file() {
    let empty_row = of_rows(2, &[&[0], &[], &[1]]);
    assert_eq!(library::read_plan(&empty_row, &[], &mut []), refused_at(4, 1));
    assert_eq!(library::write_plan(&empty_row, &mut [], &mut []), refused_at(4, 1));
    assert_eq!(solved(&empty_row, Some(&[]), 0), (refused_at(4, 1), None));
}

/// The matrix of `three_rows` and a file.
fn from_bytes(file: &[u8]) -> Result<Plan, Refusal> {
    Plan::from_bytes(3, 2, vec![0, 2, 3, 4], vec![0, 1, 0, 1], file)
}

#[test]
fn a_plan_goes_to_bytes_and_back() {
    let plan = Plan::from_data(3, 2, vec![0, 2, 3, 4], vec![0, 1, 0, 1]).expect("a right matrix");
    let file = plan.to_bytes();
    assert_eq!((plan.words().to_vec(), file.clone()), written(&three_rows_matrix()));
    let read = from_bytes(&file).expect("a yes");
    assert_eq!((read.words(), read.to_bytes()), (plan.words(), file.clone()));
    assert_eq!(from_bytes(&file[1..]).err(), Some(Refusal::FileCut));
    assert_eq!(from_bytes(&[]).err(), Some(Refusal::FileKinds));
    assert_eq!(from_bytes(&written(&of_rows(1, &[&[0]])).1).err(), Some(Refusal::FileLists));
    assert_eq!(Plan::from_data(1, 1, vec![0, 0], vec![]).err(), Some(Refusal::EmptyRow { row: 0 }));
}

#[test]
fn a_solver_with_a_file_gives_what_it_gives_without() {
    let file = Plan::from_data(3, 2, vec![0, 2, 3, 4], vec![0, 1, 0, 1]).expect("a right matrix").to_bytes();
    let (b, c) = entries();
    let mut plain = three_rows();
    let mut filed = three_rows().with_file(file.clone());
    let wanted = plain.solve(&b, &c, &Tolerances::default(), limit(100));
    assert!(wanted.is_ok());
    assert_eq!(filed.solve(&b, &c, &Tolerances::default(), limit(100)), wanted);
    for (file, no) in [(vec![], Refusal::FileKinds), (file[1..].to_vec(), Refusal::FileCut)] {
        let refused = three_rows().with_file(file).solve(&b, &c, &Tolerances::default(), limit(100)).err();
        assert_eq!(refused, Some(no));
    }
}
