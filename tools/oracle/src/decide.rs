//! Questions 14 to 16 by their text, of any bytes, and the calls that ask them. It shares nothing with what is under
//! test.

use crate::file::{FIRST_NOTE, Filed, KIND, LENGTH, NUMBER, Record, written};
use crate::plan::Lists;
use crate::problem::{Planned, Refusal};

/// The place of the list that a kind says, 1 to 16, whatever the turn.
fn list_of(record: &Record) -> Option<usize> {
    (1..=16).contains(&record.kind).then(|| usize::from(record.kind) - 1)
}

fn numbers(body: &[u8]) -> Vec<u32> {
    body.as_chunks::<NUMBER>().0.iter().map(|&bytes| u32::from_le_bytes(bytes)).collect()
}

/// The records of a file; none if one is cut short or shorter than its kind.
fn records(file: &[u8]) -> Option<Vec<Record>> {
    let mut all = Vec::new();
    let mut rest = file;
    while !rest.is_empty() {
        let (length, after) = rest.split_first_chunk::<LENGTH>()?;
        let (record, others) = after.split_at_checked(u32::from_le_bytes(*length) as usize)?;
        let (kind, body) = record.split_first_chunk::<KIND>()?;
        all.push(Record { kind: u16::from_le_bytes(*kind), body: body.to_vec() });
        rest = others;
    }
    Some(all)
}

/// Questions 14 to 16, each of the whole file before the next, for a matrix that has these lists.
pub fn ask_file(lists: &Lists, file: &[u8]) -> Result<(), Refusal> {
    let no = |question| Err(Refusal::at(question, 0));
    let Some(records) = records(file) else { return no(14) };
    if records.iter().any(|record| list_of(record).is_some() && record.body.len() % NUMBER != 0) {
        return no(14);
    }
    let rest: Vec<&Record> = records.iter().filter(|record| record.kind < FIRST_NOTE).collect();
    if !rest.iter().map(|record| list_of(record)).eq((0..lists.len()).map(Some)) {
        return no(15);
    }
    if !rest.iter().zip(lists).all(|(record, list)| numbers(&record.body) == *list) {
        return no(16);
    }
    Ok(())
}

/// A matrix's lists, or its no at 1 to 5.
pub type Listed = Result<Lists, Refusal>;

/// Questions 1 to 5, then 14 to 16.
pub fn ask_listed<'a>(lists: &'a Listed, file: &[u8]) -> Result<&'a Lists, Refusal> {
    let lists = lists.as_ref().map_err(|&no| no)?;
    ask_file(lists, file)?;
    Ok(lists)
}

/// A reading call in so many index words: questions 1 to 5, 14 to 16, then 6, and the plan.
pub fn read_plan(lists: &Listed, file: &[u8], index: usize) -> Planned {
    let words = ask_listed(lists, file)?.concat();
    if index < words.len() { Err(Refusal::at(6, 0)) } else { Ok(words) }
}

/// A writing call in so many index words and bytes: questions 1 to 6, then 8, and the plan with its file.
pub fn write_plan(lists: &Listed, index: usize, bytes: usize) -> Filed {
    let whole = written(lists.as_ref().map_err(|&no| no)?);
    if index < whole.words.len() {
        return Err(Refusal::at(6, 0));
    }
    if bytes < whole.bytes.len() { Err(Refusal::at(8, 0)) } else { Ok(whole) }
}
