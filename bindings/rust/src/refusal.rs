//! The noes of the library, one case for each question.

use std::fmt;

use crate::library::{Answer, YES};

/// The first question that had a no. The cases stand in the order in which the questions are asked.
#[derive(Clone, Copy, Debug, PartialEq, Eq)]
pub enum Refusal {
    /// 1: the number of rows is not from 1 to 256.
    Rows,
    /// 2: the number of columns is not from 1 to 1,024.
    Columns,
    /// 3: offsets, columns and values do not fit together, or there are more than 16,384 entries.
    Lists,
    /// 4: the first row without an entry.
    EmptyRow { row: usize },
    /// 5: the first row whose columns do not rise strictly or reach the number of columns.
    ColumnOrder { row: usize },
    /// 14: a record of the file is cut short or shorter than its kind, or a list in it is not whole numbers.
    FileCut,
    /// 15: the file's records are not the sixteen lists in order, with notes around them.
    FileKinds,
    /// 16: a list of the file is not this matrix's.
    FileLists,
    /// 6: the index memory is too small. A [`Solver`](crate::Solver) lends enough.
    IndexMemory,
    /// 7: there are more inequalities than rows.
    SlackRows,
    /// 8: b or c has the wrong length.
    Lengths,
    /// 9: the working memory is too small. A [`Solver`](crate::Solver) lends enough.
    WorkingMemory,
    /// 10: the limit is not from 1 to 10,000.
    Limit,
    /// 13: centring or damping is not above 0 and below 1.
    Fractions,
    /// 11: the test, counted from 1, at which a lane met a NaN, and the lowest such lane.
    Spoilt { test: usize, lane: usize },
    /// 12: not all lanes were done at any test up to the limit.
    NotDone { limit: usize },
    /// An answer that the library never gives: the one linked is not the one this crate was written for.
    Unknown { question: u32 },
}

impl Refusal {
    /// The question's number, 1 to 16.
    pub fn question(&self) -> u32 {
        match *self {
            Refusal::Rows => 1,
            Refusal::Columns => 2,
            Refusal::Lists => 3,
            Refusal::EmptyRow { .. } => 4,
            Refusal::ColumnOrder { .. } => 5,
            Refusal::FileCut => 14,
            Refusal::FileKinds => 15,
            Refusal::FileLists => 16,
            Refusal::IndexMemory => 6,
            Refusal::SlackRows => 7,
            Refusal::Lengths => 8,
            Refusal::WorkingMemory => 9,
            Refusal::Limit => 10,
            Refusal::Fractions => 13,
            Refusal::Spoilt { .. } => 11,
            Refusal::NotDone { .. } => 12,
            Refusal::Unknown { question } => question,
        }
    }

    /// The place of a yes, or the refusal.
    pub(crate) fn unless_yes(answer: Answer) -> Result<usize, Refusal> {
        if answer.question == YES { Ok(answer.place as usize) } else { Err(Refusal::of(answer)) }
    }

    /// The refusal that a no tells.
    pub(crate) fn of(no: Answer) -> Refusal {
        let place = no.place as usize;
        match no.question {
            1 => Refusal::Rows,
            2 => Refusal::Columns,
            3 => Refusal::Lists,
            4 => Refusal::EmptyRow { row: place },
            5 => Refusal::ColumnOrder { row: place },
            6 => Refusal::IndexMemory,
            7 => Refusal::SlackRows,
            8 => Refusal::Lengths,
            9 => Refusal::WorkingMemory,
            10 => Refusal::Limit,
            11 => Refusal::Spoilt { test: place, lane: no.lane.into() },
            12 => Refusal::NotDone { limit: place },
            13 => Refusal::Fractions,
            14 => Refusal::FileCut,
            15 => Refusal::FileKinds,
            16 => Refusal::FileLists,
            question => Refusal::Unknown { question },
        }
    }
}

impl fmt::Display for Refusal {
    fn fmt(&self, out: &mut fmt::Formatter<'_>) -> fmt::Result {
        match self {
            Refusal::Rows => write!(out, "the number of rows is not from 1 to 256"),
            Refusal::Columns => write!(out, "the number of columns is not from 1 to 1,024"),
            Refusal::Lists => {
                write!(
                    out,
                    "row offsets, columns and values do not fit together, or there are more than 16,384 entries"
                )
            }
            Refusal::EmptyRow { row } => write!(out, "row {row} has no entry"),
            Refusal::ColumnOrder { row } => {
                write!(out, "the columns of row {row} do not rise strictly or reach the number of columns")
            }
            Refusal::FileCut => {
                write!(out, "a record of the file is cut short, is shorter than its kind, or ends within a number")
            }
            Refusal::FileKinds => write!(out, "the file's records are not the sixteen lists in order"),
            Refusal::FileLists => write!(out, "a list of the file is not this matrix's"),
            Refusal::IndexMemory => write!(out, "the index memory is too small"),
            Refusal::SlackRows => write!(out, "there are more inequalities than rows"),
            Refusal::Lengths => write!(out, "b or c has the wrong length"),
            Refusal::WorkingMemory => write!(out, "the working memory is too small"),
            Refusal::Limit => write!(out, "the limit is not from 1 to 10,000 tests"),
            Refusal::Fractions => write!(out, "centring or damping is not above 0 and below 1"),
            Refusal::Spoilt { test, lane } => write!(out, "lane {lane} met a NaN at test {test}"),
            Refusal::NotDone { limit } => write!(out, "not all lanes were done within {limit} tests"),
            Refusal::Unknown { question } => write!(out, "libipm_c.a answered with an unknown question {question}"),
        }
    }
}

impl std::error::Error for Refusal {}
