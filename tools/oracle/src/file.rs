//! A plan's file by its text, from lists alone. A record is its length (u32, the bytes after it), its kind (u16) and
//! its body, little-endian. Kinds 1 to 16 are the sixteen lists, in order, each once, bodies of u32.

use crate::plan::Lists;
use crate::problem::Refusal;

/// The bytes of a record's length, of its kind, and of a number in a list.
pub const LENGTH: usize = 4;
pub const KIND: usize = 2;
pub const NUMBER: usize = 4;

/// Kinds from here on are notes.
pub const FIRST_NOTE: u16 = 0x8000;

/// The most bytes of a small body; some are not whole numbers.
pub const SMALL_BODY: usize = 9;

/// The words that a plan has and the bytes of its file.
#[derive(Clone, Debug, PartialEq, Eq)]
pub struct Written {
    pub words: Vec<u32>,
    pub bytes: Vec<u8>,
}

/// What writing a plan's file gives, or a no.
pub type Filed = Result<Written, Refusal>;

#[derive(Clone, Debug, PartialEq, Eq)]
pub struct Record {
    pub kind: u16,
    pub body: Vec<u8>,
}

impl Record {
    fn bytes(&self) -> Vec<u8> {
        let length = (KIND + self.body.len()) as u32;
        [&length.to_le_bytes()[..], &self.kind.to_le_bytes(), &self.body].concat()
    }
}

/// The bytes of some records, one after the other.
pub fn joined(records: &[Record]) -> Vec<u8> {
    records.iter().flat_map(Record::bytes).collect()
}

/// The sixteen lists as records.
pub fn listed(lists: &Lists) -> Vec<Record> {
    let body = |list: &Vec<u32>| list.iter().flat_map(|word| word.to_le_bytes()).collect();
    (1..).zip(lists).map(|(kind, list)| Record { kind, body: body(list) }).collect()
}

/// What a writing call gives for a matrix that has these lists.
pub fn written(lists: &Lists) -> Written {
    Written { words: lists.concat(), bytes: joined(&listed(lists)) }
}

/// Where each record begins.
pub fn starts(records: &[Record]) -> Vec<usize> {
    let sizes = records.iter().map(|record| LENGTH + KIND + record.body.len());
    sizes.scan(0, |end, size| Some(std::mem::replace(end, *end + size))).collect()
}

/// A note in every gap, bodies of 0, 1, 2 .. bytes.
pub fn with_all_notes(records: &[Record]) -> Vec<Record> {
    let note = |gap: usize| Record { kind: FIRST_NOTE + gap as u16, body: vec![gap as u8; gap % SMALL_BODY] };
    let mut noted = vec![note(0)];
    for (gap, record) in (1..).zip(records) {
        noted.extend([record.clone(), note(gap)]);
    }
    noted
}
