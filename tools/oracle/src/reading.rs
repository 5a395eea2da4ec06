//! The reading program under test: one process for each record. Switched on by IPM_READ, its path.

use std::io::Write;
use std::process::{Command, Stdio};

use crate::backend::{Backend, Told};
use crate::file::Filed;
use crate::plan::Measured;
use crate::problem::{Answer, Fractions, LANES, Matrix, Planned, Problem, Refusal};
use crate::record::{READING, read, write};

pub struct ReadingProgram {
    path: String,
}

fn numbers(text: &str) -> Option<Vec<usize>> {
    text.split(' ').map(|word| word.parse().ok()).collect()
}

/// The answer that a text says. Its layout is checked by writing it again.
fn answer_of_text(text: &str) -> Option<Answer> {
    let (first, rest) = text.split_once('\n')?;
    let answer = if let Some(words) = first.strip_prefix("refused ") {
        let [question, place, lane] = numbers(words)?[..] else { return None };
        Answer::Refused(Refusal { question, place, lane })
    } else {
        let test = first.strip_prefix("accepted ")?.parse().ok()?;
        let words: Option<Vec<u64>> = rest.split_whitespace().map(|word| u64::from_str_radix(word, 16).ok()).collect();
        Answer::Accepted { test, x: words.filter(|x| x.len() % LANES == 0)?, y: None }
    };
    (answer.to_string() == text).then_some(answer)
}

impl ReadingProgram {
    pub fn from_env() -> Option<Self> {
        std::env::var("IPM_READ").ok().map(|path| ReadingProgram { path })
    }

    /// What the program prints for the bytes.
    pub fn run(&self, bytes: &[u8]) -> Result<String, String> {
        let mut command = Command::new(&self.path);
        let started = command.stdin(Stdio::piped()).stdout(Stdio::piped()).spawn();
        let mut child = started.map_err(|e| format!("{}: {e}", self.path))?;
        // A program that stops reading early closes the pipe; its answer still counts.
        let _ = child.stdin.take().expect("a pipe").write_all(bytes);
        let output = child.wait_with_output().map_err(|e| e.to_string())?;
        String::from_utf8(output.stdout).map_err(|e| e.to_string())
    }
}

impl Backend for ReadingProgram {
    fn name(&self) -> &'static str {
        "reading program"
    }

    fn solve(&mut self, problem: &Problem) -> Result<Option<Told>, String> {
        let sizes = [problem.s, problem.limit, problem.matrix.entries()];
        if problem.fractions != Fractions::default() || sizes.iter().any(|&size| size > u16::MAX as usize) {
            return Ok(None);
        }
        let bytes = write(problem);
        if read(&bytes, READING).is_none() {
            return Ok(None);
        }
        let text = self.run(&bytes)?;
        let answer = answer_of_text(&text).ok_or_else(|| format!("an unknown answer: {text:?}"))?;
        Ok(Some(Told::only(answer)))
    }

    fn plan(&mut self, _: &Matrix) -> Result<Option<Planned>, String> {
        Ok(None)
    }

    fn sizes(&mut self, _: &Matrix, _: usize) -> Result<Option<Measured>, String> {
        Ok(None)
    }

    fn file(&mut self, _: &Matrix) -> Result<Option<Filed>, String> {
        Ok(None)
    }
}
