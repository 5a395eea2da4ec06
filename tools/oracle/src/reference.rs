//! The answers of document 01, by the machine and the lists written from it.

use crate::backend::{Backend, Test, Told, Trace};
use crate::file::{Filed, written};
use crate::machine::{Machine, Shape, Verdict};
use crate::plan::{Counts, Measured, Sizes, lists, plan_words, work_numbers};
use crate::problem::{Answer, LANES, Matrix, Planned, Problem, Refusal, settled_bits};
use crate::questions::{Room, ask_matrix, ask_plan, ask_slack_rows, ask_solve};

/// A run of the four machines: its answer, how it came about, and the lanes that were spoilt by their wait.
pub struct Run {
    pub answer: Answer,
    pub trace: Trace,
    pub spoilt_waiting: [bool; LANES],
}

impl Run {
    fn refused(no: Refusal) -> Self {
        Run { answer: Answer::Refused(no), trace: Trace::default(), spoilt_waiting: [false; LANES] }
    }

    /// The first test at which the lane was done.
    pub fn first_done(&self, l: usize) -> Option<usize> {
        self.trace.tests.iter().position(|test| test.done[l]).map(|k| k + 1)
    }
}

/// The bits of a list of each lane, entry k lane l at 4k + l.
fn together(lists: [&[f64]; LANES]) -> Vec<u64> {
    (0..lists[0].len()).flat_map(|k| lists.map(|list| settled_bits(list[k]))).collect()
}

/// The answer once questions 1 to 10 and 13 have a yes, or the test goes on.
fn stopped(verdicts: [Verdict; LANES], test: usize, machines: &[Machine; LANES]) -> Option<Answer> {
    if let Some(lane) = verdicts.iter().position(|&verdict| verdict == Verdict::Spoilt) {
        return Some(Answer::Refused(Refusal { question: 11, place: test, lane }));
    }
    if verdicts != [Verdict::Done; LANES] {
        return None;
    }
    let x = together(machines.each_ref().map(|machine| &machine.x[..]));
    let y = together(machines.each_ref().map(|machine| &machine.y[..]));
    Some(Answer::Accepted { test, x, y: Some(y) })
}

/// The whole of document 01's solve.
pub fn run(problem: &Problem, room: Room) -> Run {
    if let Err(no) = ask_solve(problem, room) {
        return Run::refused(no);
    }
    let shape = Shape::new(problem);
    let mut machines: [Machine; LANES] = std::array::from_fn(|l| Machine::new(&shape, problem, l));
    let mut run = Run::refused(Refusal::at(12, problem.limit));
    for test in 1..=problem.limit {
        let verdicts: [Verdict; LANES] = std::array::from_fn(|l| machines[l].test());
        let spoilt = verdicts.map(|verdict| verdict == Verdict::Spoilt);
        run.trace.tests.push(Test { spoilt, done: verdicts.map(|verdict| verdict == Verdict::Done) });
        if let Some(answer) = stopped(verdicts, test, &machines) {
            run.answer = answer;
            break;
        }
        for (l, machine) in machines.iter_mut().enumerate() {
            match verdicts[l] {
                Verdict::Done => run.spoilt_waiting[l] = machine.wait(),
                _ => machine.step(),
            }
        }
    }
    run.trace.numbers = std::array::from_fn(|l| machines[l].numbers());
    run
}

/// The plan's words, one list after another.
pub fn plan(matrix: &Matrix, index: usize) -> Planned {
    let counts = ask_plan(matrix, index)?;
    let words = lists(matrix).concat();
    assert_eq!(words.len(), plan_words(matrix, counts), "the lists fill W words");
    Ok(words)
}

/// What a matrix needs that has a yes at 1 to 5 and these counts.
pub fn sizes(matrix: &Matrix, s: usize, counts: Counts) -> Measured {
    ask_slack_rows(matrix, s)?;
    Ok(Sizes { counts, words: plan_words(matrix, counts), numbers: work_numbers(matrix, s, counts) })
}

/// The plan's words and its file.
pub fn file(matrix: &Matrix) -> Filed {
    ask_matrix(matrix, None)?;
    Ok(written(&lists(matrix)))
}

pub struct Reference;

impl Backend for Reference {
    fn name(&self) -> &'static str {
        "reference"
    }

    fn solve(&mut self, problem: &Problem) -> Result<Option<Told>, String> {
        let run = run(problem, Room::ample(problem));
        Ok(Some(Told { answer: run.answer, trace: Some(run.trace) }))
    }

    fn plan(&mut self, matrix: &Matrix) -> Result<Option<Planned>, String> {
        Ok(Some(plan(matrix, usize::MAX)))
    }

    fn sizes(&mut self, matrix: &Matrix, s: usize) -> Result<Option<Measured>, String> {
        Ok(Some(ask_plan(matrix, usize::MAX).and_then(|counts| sizes(matrix, s, counts))))
    }

    fn file(&mut self, matrix: &Matrix) -> Result<Option<Filed>, String> {
        Ok(Some(file(matrix)))
    }
}
