//! The oracle: the unchanged Rust and a reference written from document 01, side by side.

mod backend;
mod cases;
mod compare;
mod decide;
#[cfg(ipm_c)]
#[path = "../../../bindings/rust/src/extern_c.rs"]
mod extern_c;
mod file;
mod file_cases;
#[cfg(ipm_c)]
mod files;
#[cfg(ipm_c)]
mod fractions;
mod generate;
#[cfg(ipm_c)]
mod library;
mod machine;
mod odd;
mod plan;
mod problem;
mod questions;
mod random;
mod reading;
mod record;
mod reference;
#[cfg(ipm_c)]
mod rooms;
#[cfg(ipm_c)]
mod roots;
mod rubbish;
mod rust;
#[cfg(ipm_c)]
mod sizes;
mod unchanged;

use std::io::{Read, Write};
use std::path::Path;
use std::process::ExitCode;

use backend::Backend;
use problem::{LANES, Problem};
use questions::Room;
use reference::Reference;
use unchanged::Unchanged;

const USAGE: &str = "usage: oracle COMMAND
  answer FILE [rust|reference|library]  the answer of each record of FILE (- is standard input)
  read                                  as the reading program: one record from standard input, its sizes and all
  plan FILE [binary]                    the Rust's sixteen lists for each record: text, or u32 little-endian
  lanes FILE                            for each record the first test at which each lane is done
  compare [SEED] [SCALE]                everything beside everything; fails on a difference
  cases FOLDER [SEED] [BYTES]           writes solve.bin, plan.bin and files.bin, in pieces of at most BYTES
  odd                                   what the Rust does with inputs that are refused";

const SEED: u64 = 20261104;
const SCALE: usize = 2000;

/// Every backend beside the reference.
fn backends() -> Vec<Box<dyn Backend>> {
    let mut all: Vec<Box<dyn Backend>> = vec![Box::new(Unchanged)];
    if let Some(program) = reading::ReadingProgram::from_env() {
        all.push(Box::new(program));
    }
    #[cfg(ipm_c)]
    all.push(Box::new(library::Library));
    all
}

fn bytes_of(file: &str) -> Result<Vec<u8>, String> {
    if file == "-" {
        let mut bytes = Vec::new();
        std::io::stdin().read_to_end(&mut bytes).map_err(|e| e.to_string())?;
        return Ok(bytes);
    }
    std::fs::read(file).map_err(|e| format!("{file}: {e}"))
}

/// Does `act` for each record's problem, and prints `input` for what is no record.
fn for_each_problem(file: &str, mut act: impl FnMut(Problem) -> Result<(), String>) -> Result<(), String> {
    for bytes in record::split(&bytes_of(file)?) {
        match record::read(bytes, record::ANY) {
            Some(problem) => act(problem)?,
            None => println!("input"),
        }
    }
    Ok(())
}

fn backend_named(name: &str) -> Result<Box<dyn Backend>, String> {
    match name {
        "reference" => Ok(Box::new(Reference)),
        "rust" => Ok(Box::new(Unchanged)),
        #[cfg(ipm_c)]
        "library" => Ok(Box::new(library::Library)),
        _ => Err(format!("no {name} here\n{USAGE}")),
    }
}

fn answer(file: &str, by: &str) -> Result<(), String> {
    let mut backend = backend_named(by)?;
    for_each_problem(file, |problem| {
        // What is not for the Rust is refused, and the refusal is the reference's.
        let told = backend.solve(&problem)?;
        let answer = told.map_or_else(|| reference::run(&problem, Room::ample(&problem)).answer, |told| told.answer);
        print!("{answer}");
        Ok(())
    })
}

fn show_plan(file: &str, binary: bool) -> Result<(), String> {
    for_each_problem(file, |problem| {
        if let Err(no) = questions::ask_matrix(&problem.matrix, None) {
            print!("{}", problem::Answer::Refused(no));
            return Ok(());
        }
        for (name, list) in plan::NAMES.iter().zip(rust::lists(&problem.matrix)) {
            if binary {
                let bytes: Vec<u8> = list.iter().flat_map(|word| word.to_le_bytes()).collect();
                std::io::stdout().write_all(&bytes).map_err(|e| e.to_string())?;
            } else {
                println!("{name} {list:?}");
            }
        }
        Ok(())
    })
}

fn show_lanes(file: &str) -> Result<(), String> {
    for_each_problem(file, |problem| {
        let run = reference::run(&problem, Room::ample(&problem));
        for l in 0..LANES {
            match run.first_done(l) {
                Some(test) => println!("lane {l} is done from test {test}"),
                None => println!("lane {l} is never done"),
            }
        }
        Ok(())
    })
}

fn compare(seed: u64, scale: usize) -> Result<(), String> {
    println!("seed {seed}, scale {scale}");
    let mut comparison = compare::Comparison::new(backends());
    compare::compare_all(&mut comparison, seed, scale);
    rubbish::compare(&mut comparison, &mut random::Random::new(seed), scale);
    #[cfg(ipm_c)]
    {
        rooms::compare(&mut comparison, &mut random::Random::new(seed), 10 * scale);
        fractions::compare(&mut comparison, &mut random::Random::new(seed), scale);
        roots::compare(&mut comparison, &mut random::Random::new(seed), scale);
        sizes::compare(&mut comparison, &mut random::Random::new(seed), 10 * scale);
        files::compare(&mut comparison, &mut random::Random::new(seed), scale);
    }
    if comparison.report() { Ok(()) } else { Err("there are differences".into()) }
}

fn number<T: std::str::FromStr>(word: Option<&&str>, otherwise: T) -> Result<T, String> {
    word.map_or(Ok(otherwise), |word| word.parse().map_err(|_| format!("{word} is no number\n{USAGE}")))
}

fn run(words: &[&str]) -> Result<(), String> {
    match words {
        ["answer", file] => answer(file, "rust"),
        ["answer", file, by] => answer(file, by),
        ["read"] => {
            print!("{}", cases::reading_text(&bytes_of("-")?)?);
            Ok(())
        }
        ["plan", file] => show_plan(file, false),
        ["plan", file, "binary"] => show_plan(file, true),
        ["lanes", file] => show_lanes(file),
        ["compare", rest @ ..] if rest.len() <= 2 => compare(number(rest.first(), SEED)?, number(rest.get(1), SCALE)?),
        ["cases", folder, rest @ ..] if rest.len() <= 2 => {
            cases::write_cases(Path::new(folder), number(rest.first(), SEED)?, number(rest.get(1), usize::MAX)?)
        }
        ["odd"] => {
            odd::show();
            Ok(())
        }
        _ => Err(USAGE.into()),
    }
}

fn main() -> ExitCode {
    unchanged::quiet_panics();
    let words: Vec<String> = std::env::args().skip(1).collect();
    let words: Vec<&str> = words.iter().map(String::as_str).collect();
    match run(&words) {
        Ok(()) => ExitCode::SUCCESS,
        Err(fault) => {
            eprintln!("oracle: {fault}");
            ExitCode::FAILURE
        }
    }
}
