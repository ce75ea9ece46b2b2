//! The mutation check: puts each wrong rule into the model and prints which job
//! noticed it, and to how many calls that job shrinks.
//!
//! `mutations [ROUNDS] [SEED]` tries up to ROUNDS seeds of every mode from a
//! seed on.

use std::{env, process::ExitCode};

use harness::{
    compare::{compare, notice, Difference, Noticed},
    jobs::{shrink::shrunk, Job},
    model::mutation::{Mutation, Rules},
    words::calls,
};

const ROUNDS: u64 = 300;

fn main() -> ExitCode {
    let mut args = env::args()
        .skip(1)
        .map(|arg| arg.parse().expect("a number"));
    let rounds = args.next().unwrap_or(ROUNDS);
    let seed = args.next().unwrap_or(0);
    println!(
        "| wrong rule | in words | noticed by | mode | seed | jobs needed | shrunk to calls |"
    );
    println!("|---|---|---|---|---|---|---|");

    let mut unnoticed = 0;
    for mutation in Mutation::ALL.iter().copied() {
        let noticed = notice(mutation, seed..seed + rounds);
        unnoticed += usize::from(noticed.is_none());
        println!("{}", row(mutation, noticed));
    }
    println!(
        "\n{} wrong rules, {unnoticed} unnoticed",
        Mutation::ALL.len()
    );
    match unnoticed {
        0 => ExitCode::SUCCESS,
        _ => ExitCode::FAILURE,
    }
}

fn row(mutation: Mutation, noticed: Option<Noticed>) -> String {
    let words = mutation.describe();
    let Some(noticed) = noticed else {
        return format!("| {mutation:?} | {words} | nobody | | | | |");
    };
    let by = by(&noticed.difference);
    let Noticed {
        mode, seed, jobs, ..
    } = noticed;
    let calls = shortest(mutation, &noticed);
    format!("| {mutation:?} | {words} | {by} | {mode:?} | {seed} | {jobs} | {calls} |")
}

/// The calls of the job that noticed, once it is shrunk.
fn shortest(mutation: Mutation, noticed: &Noticed) -> usize {
    let job = Job::new(noticed.mode, noticed.seed);
    let notices = |job: &Job| compare(job, Rules::but(mutation)).is_err();
    calls(&shrunk(&job, notices).list).count()
}

fn by(difference: &Difference) -> String {
    match difference {
        Difference::Answer { .. } => "an answer of the original".to_owned(),
        Difference::Meaning { .. } => "the meanings".to_owned(),
        Difference::Pruning { .. } => "a look at every entry".to_owned(),
        Difference::Tree { .. } => "the original's tree".to_owned(),
        Difference::Original(what) => format!("the original's {what}"),
        Difference::Port(what) => format!("the port's {what}"),
    }
}
