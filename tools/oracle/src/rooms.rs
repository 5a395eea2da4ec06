//! Memory and lists of wrong lengths, which only the static library can be given: questions 3, 6, 8 and 9.

use crate::compare::Comparison;
use crate::generate;
use crate::library::{enough, plan_in, solve_in};
use crate::plan::{plan_words, work_numbers};
use crate::problem::{Answer, LANES, Problem};
use crate::questions::{Room, ask_plan};
use crate::random::Random;
use crate::reference;

/// One less, the same or one more, mostly the same.
fn near(random: &mut Random, length: usize) -> usize {
    match random.below(12) {
        0 => length.saturating_sub(1),
        1 => length + 1,
        2 => 0,
        _ => length,
    }
}

/// Near the length of the prices, or at times that of the output.
fn near_prices(random: &mut Random, problem: &Problem) -> usize {
    if random.once_in(6) { LANES * problem.matrix.n } else { near(random, LANES * problem.matrix.m) }
}

/// Exactly what the problem needs.
pub fn exact(problem: &Problem) -> Room {
    match ask_plan(&problem.matrix, usize::MAX) {
        Err(_) => enough(problem),
        Ok(counts) => Room {
            index: plan_words(&problem.matrix, counts),
            work: work_numbers(&problem.matrix, problem.s, counts),
            ..enough(problem)
        },
    }
}

/// Changes lengths at random.
pub fn vary(random: &mut Random, problem: &mut Problem) -> Room {
    for list in [&mut problem.values, &mut problem.b, &mut problem.c, &mut problem.tolerances] {
        let length = near(random, list.len());
        list.resize(length, 1.0);
    }
    for list in [&mut problem.matrix.offsets, &mut problem.matrix.columns] {
        if random.once_in(8) {
            let length = near(random, list.len());
            list.resize(length, 0);
        }
    }
    let room = exact(problem);
    Room {
        output: near(random, room.output),
        prices: near_prices(random, problem),
        index: near(random, room.index),
        work: near(random, room.work),
    }
}

/// The static library beside the reference with this much lent; gives the reference's answer.
pub fn compare_solve(comparison: &mut Comparison, what: &str, problem: &Problem, room: Room) -> Answer {
    let wanted = reference::run(problem, room).answer;
    comparison.count(format!("solves with {what} varied: static library"));
    match solve_in(problem, room) {
        Ok(answer) if answer == wanted => {}
        other => comparison.differ(format!("static library {other:?}, wanted {wanted:?}: {room:?} {problem:?}")),
    }
    wanted
}

pub fn compare(comparison: &mut Comparison, random: &mut Random, count: usize) {
    for _ in 0..count {
        let mut problem = if random.once_in(6) { generate::wrong(random) } else { generate::solvable(random, 4, 4) };
        let room = vary(random, &mut problem);
        compare_solve(comparison, "lengths", &problem, room);
        let wanted = reference::plan(&problem.matrix, room.index);
        comparison.count("plans with lengths varied: static library");
        match plan_in(&problem.matrix, room.index) {
            Ok(planned) if planned == wanted => {}
            other => comparison.differ(format!("static library {other:?}, wanted {wanted:?}: {room:?} {problem:?}")),
        }
    }
}
