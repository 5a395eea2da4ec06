//! The record of document 01's reading program: bytes to a problem and back.

use crate::problem::{LANES, Matrix, Problem};

const KIND: u16 = 1;
const TOLERANCES: usize = 3 * LANES;

/// The largest sizes that a reader takes.
#[derive(Clone, Copy)]
pub struct Limits {
    pub rows: usize,
    pub columns: usize,
    pub entries: usize,
}

/// Those of the reading program.
pub const READING: Limits = Limits { rows: 16, columns: 32, entries: 128 };
/// No limit but what a record can say.
pub const ANY: Limits = Limits { rows: u16::MAX as usize, columns: u16::MAX as usize, entries: u16::MAX as usize };

struct Reader<'a> {
    bytes: &'a [u8],
}

impl Reader<'_> {
    fn take<const N: usize>(&mut self) -> Option<[u8; N]> {
        let (first, rest) = self.bytes.split_first_chunk::<N>()?;
        self.bytes = rest;
        Some(*first)
    }

    fn short(&mut self) -> Option<usize> {
        self.take().map(|bytes| u16::from_le_bytes(bytes) as usize)
    }

    fn shorts(&mut self, count: usize) -> Option<Vec<u32>> {
        (0..count).map(|_| self.short().map(|number| number as u32)).collect()
    }

    fn floats(&mut self, count: usize) -> Option<Vec<f64>> {
        (0..count).map(|_| self.take().map(f64::from_le_bytes)).collect()
    }
}

/// The problem of one whole record, or nothing if the bytes don't match or a size is beyond the limits.
pub fn read(bytes: &[u8], limits: Limits) -> Option<Problem> {
    let mut reader = Reader { bytes };
    let length = u32::from_le_bytes(reader.take()?) as usize;
    if length != reader.bytes.len() || u16::from_le_bytes(reader.take()?) != KIND {
        return None;
    }
    let (m, n, s) = (reader.short()?, reader.short()?, reader.short()?);
    let (limit, t) = (reader.short()?, reader.short()?);
    if m > limits.rows || n > limits.columns || t > limits.entries {
        return None;
    }
    let matrix = Matrix { m, n, offsets: reader.shorts(m + 1)?, columns: reader.shorts(t)? };
    let values = reader.floats(t)?;
    let tolerances = reader.floats(TOLERANCES)?;
    let (b, c) = (reader.floats(LANES * m)?, reader.floats(LANES * n)?);
    reader.bytes.is_empty().then_some(Problem { matrix, values, s, b, c, tolerances, limit, ..Problem::default() })
}

/// The record of a problem whose lists are as long as a record says.
pub fn write(problem: &Problem) -> Vec<u8> {
    let matrix = &problem.matrix;
    let mut body = KIND.to_le_bytes().to_vec();
    let sizes = [matrix.m, matrix.n, problem.s, problem.limit, matrix.entries()];
    let shorts = sizes.iter().map(|&size| size as u32).chain(matrix.offsets.iter().chain(&matrix.columns).copied());
    for short in shorts {
        body.extend(u16::try_from(short).expect("a record holds 16-bit numbers").to_le_bytes());
    }
    for list in [&problem.values, &problem.tolerances, &problem.b, &problem.c] {
        body.extend(list.iter().flat_map(|number| number.to_le_bytes()));
    }
    let mut bytes = (body.len() as u32).to_le_bytes().to_vec();
    bytes.extend(body);
    bytes
}

/// The records of a file that holds one after another; what is left over is the last.
pub fn split(mut bytes: &[u8]) -> Vec<&[u8]> {
    let mut records = Vec::new();
    while let Some(length) = bytes.first_chunk::<4>() {
        let end = bytes.len().min(4 + u32::from_le_bytes(*length) as usize);
        records.push(&bytes[..end]);
        bytes = &bytes[end..];
    }
    if !bytes.is_empty() {
        records.push(bytes);
    }
    records
}
