//! Bytes that are no record, or hardly one, for the reading program.

use crate::cases::reading_text;
use crate::compare::Comparison;
use crate::generate;
use crate::random::Random;
use crate::reading::ReadingProgram;
use crate::record::{READING, write};

const HEADER: usize = 16;
const MEGABYTE: usize = 1 << 20;

/// A record with something done to its bytes.
fn spoilt_record(random: &mut Random) -> Vec<u8> {
    let mut bytes = write(&generate::solvable(random, 3, 3));
    match random.below(6) {
        0 => bytes.truncate(random.below(bytes.len())),
        1 => bytes.push(random.below(256) as u8),
        2 => bytes[random.below(HEADER)] ^= 1 << random.below(8),
        3 => {
            let place = random.below(bytes.len());
            bytes[place] = random.below(256) as u8;
        }
        4 => bytes = write(&generate::solvable(random, 24, 48)),
        _ => bytes = (0..random.below(400)).map(|_| random.below(256) as u8).collect(),
    }
    bytes
}

fn compare_one(comparison: &mut Comparison, program: &ReadingProgram, bytes: &[u8]) {
    comparison.count("spoilt records: reading program");
    let (given, wanted) = (program.run(bytes), reading_text(bytes));
    if given != wanted {
        comparison.differ(format!("reading program {given:?}, wanted {wanted:?}: {bytes:02x?}"));
    }
}

pub fn compare(comparison: &mut Comparison, random: &mut Random, count: usize) {
    let Some(program) = ReadingProgram::from_env() else { return };
    for _ in 0..count {
        compare_one(comparison, &program, &spoilt_record(random));
    }
    compare_one(comparison, &program, &vec![b'?'; MEGABYTE]);
    let (m, n, t) = (READING.rows, READING.columns, READING.entries);
    for (m, n, t) in [(m, n, t), (m + 1, n, t), (m, n + 1, t), (m, n, t + 1)] {
        compare_one(comparison, &program, &write(&generate::sized(m, n, t, 1e9)));
    }
}
