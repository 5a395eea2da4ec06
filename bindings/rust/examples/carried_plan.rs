//! A plan carried in a file: planned and written on one machine, read and solved with on another. The second knows the
//! matrix, and refuses a file that is not its plan's.

use std::num::NonZeroUsize;

use ipm::{LANES, Plan, Refusal, Solver, Tolerances};

/// x0 + x1 ≤ b0, x0 ≤ b1, x1 ≤ b2.
const ROWS: usize = 3;
const COLUMNS: usize = 2;
const OFFSETS: [usize; ROWS + 1] = [0, 2, 3, 4];
const ENTRIES: [usize; 4] = [0, 1, 0, 1];

/// The first kind of a note.
const NOTE: u16 = 0x8000;

/// A record: length, kind and body.
fn note(text: &str) -> Vec<u8> {
    let length = (size_of_val(&NOTE) + text.len()) as u32;
    [&length.to_le_bytes()[..], &NOTE.to_le_bytes(), text.as_bytes()].concat()
}

fn read(file: &[u8]) -> Result<Plan, Refusal> {
    Plan::from_bytes(ROWS, COLUMNS, OFFSETS.to_vec(), ENTRIES.to_vec(), file)
}

fn main() -> Result<(), Refusal> {
    let plan = Plan::from_data(ROWS, COLUMNS, OFFSETS.to_vec(), ENTRIES.to_vec())?;
    let written = plan.to_bytes();
    let carried = [note("planned on the first machine"), written.clone()].concat();
    println!("{} bytes written, {} carried", written.len(), carried.len());

    let same = read(&carried)?.words() == plan.words();
    println!("read: {} words, the same: {same}", plan.words().len());

    let values = vec![1.0; ENTRIES.len()];
    let solver = Solver::from_data(ROWS, COLUMNS, OFFSETS.to_vec(), ENTRIES.to_vec(), values, ROWS)?;
    let mut solver = solver.with_file(carried.clone());
    let (b, c) = ([[4.0; LANES], [3.0; LANES], [2.0; LANES]], [[2.0; LANES], [1.0; LANES]]);
    let limit = NonZeroUsize::new(100).expect("not 0");
    let test = solver.solve(&b, &c, &Tolerances::default(), limit)?.test;
    println!("solved with the file: done at test {test}");

    let mut flipped = carried.clone();
    *flipped.last_mut().expect("a byte") ^= 1;
    for (what, file) in [("one bit flipped", &flipped[..]), ("a byte cut off", &carried[1..]), ("empty", &[])] {
        match read(file) {
            Ok(_) => println!("{what}: read"),
            Err(no) => println!("{what}: refused at question {}: {no}", no.question()),
        }
    }
    Ok(())
}
