//! Measures the port beside the original, on the same inputs and in one run.
//!
//! `bench` prints all tables, `bench PART` those of one part, and `bench write`
//! puts all of them into docs/SPEED.md, with their plots. A number behind it is
//! the most rounds of a measurement. `bench sample CALL ENTRIES VARIABLES` makes
//! one call, by its number, over and over again on the port, for a profiler.
//!
//! The sides take turns, and each figure is the median of its rounds. The port
//! is called through C on bytes that were written before the clock starts, and
//! pays for the checks of its questions. The original is called on its own
//! values, made before the clock starts too.

mod allocator;
mod document;
mod parts;
mod plot;
mod sides;
mod table;
mod timing;

use std::{env, process::ExitCode};

use allocator::Counting;
use parts::{Part, Report, PARTS};
use sides::Call;
use timing::Rounds;

#[global_allocator]
static ALLOCATOR: Counting = Counting;

const ROUNDS: usize = 101;

fn main() -> ExitCode {
    let words: Vec<_> = env::args().skip(1).collect();
    let words: Vec<_> = words.iter().map(String::as_str).collect();
    match do_as_told(&words) {
        Some(()) => ExitCode::SUCCESS,
        None => usage(),
    }
}

/// None where the words say nothing.
fn do_as_told(words: &[&str]) -> Option<()> {
    match *words {
        ["sample", call, entries, variables] => {
            let call = *Call::ALL.get(number(call)?)?;
            parts::sample(call, number(entries)?, number(variables)?);
        }
        ["write"] => write(ROUNDS),
        ["write", count] => write(rounds(count)?),
        [] => drop(run_all(ROUNDS)),
        [count] if rounds(count).is_some() => drop(run_all(rounds(count)?)),
        [name] => drop(run(part(name)?, ROUNDS)),
        [name, count] => drop(run(part(name)?, rounds(count)?)),
        _ => return None,
    }
    Some(())
}

fn number(word: &str) -> Option<usize> {
    word.parse().ok()
}

fn rounds(word: &str) -> Option<usize> {
    number(word).filter(|rounds| *rounds > 0)
}

fn part(name: &str) -> Option<&'static Part> {
    PARTS.iter().find(|part| part.name == name)
}

fn write(rounds: usize) {
    document::write(&run_all(rounds), rounds).expect("docs/SPEED.md can be written");
}

fn run_all(rounds: usize) -> Vec<(&'static str, Report)> {
    PARTS.iter().map(|part| run(part, rounds)).collect()
}

/// Runs a part and prints its tables.
fn run(part: &Part, rounds: usize) -> (&'static str, Report) {
    let report = (part.run)(Rounds(rounds));
    println!("## {}\n\n{}", part.name, report.text);
    (part.name, report)
}

fn usage() -> ExitCode {
    let names = PARTS.iter().map(|part| part.name).collect::<Vec<_>>();
    eprintln!("bench [write | {}] [ROUNDS]", names.join(" | "));
    eprintln!("bench sample CALL ENTRIES VARIABLES");
    ExitCode::FAILURE
}
