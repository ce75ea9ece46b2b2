//! Runs jobs on port, original and model, and says what was compared.
//!
//! `jobs MODE|all COUNT [SEED] [THREADS]` runs COUNT jobs of each mode from a
//! seed on, and prints a tally of each mode, and what the jobs reached. A job
//! with a difference is shrunk and shown.
//!
//! `jobs show MODE SEED` prints one job: its opening, and each call with the
//! model's answer. `jobs words` writes the words that `crates/call_replay`
//! replays; see `jobs::record`.

use std::{
    env,
    io::{self, Write},
    process::ExitCode,
    sync::atomic::{AtomicU64, Ordering},
    thread,
    time::Instant,
};

use harness::{
    compare::compare,
    jobs::{record::sample, shrink::shrunk, Job, Mode},
    model::{mutation::Rules, Index},
    tally::Tally,
    typed,
    words::calls,
};

/// Of so many jobs one is also run by typed calls.
const TYPED: u64 = 16;

fn main() -> ExitCode {
    let args: Vec<String> = env::args().skip(1).collect();
    let args: Vec<&str> = args.iter().map(String::as_str).collect();
    match read(&args) {
        Some(Task::Show(job)) => {
            show(&job);
            ExitCode::SUCCESS
        }
        Some(Task::Words) => {
            let bytes: Vec<u8> = sample().into_iter().flat_map(u32::to_le_bytes).collect();
            io::stdout().write_all(&bytes).expect("standard output");
            ExitCode::SUCCESS
        }
        Some(Task::Compare(work)) => match work.run() {
            Ok(()) => ExitCode::SUCCESS,
            Err((mode, seed)) => {
                show_difference(mode, seed);
                ExitCode::FAILURE
            }
        },
        None => {
            eprintln!(
                "usage: jobs MODE|all COUNT [SEED] [THREADS], jobs show MODE SEED, or jobs words"
            );
            eprintln!("modes: {:?}", Mode::ALL);
            ExitCode::FAILURE
        }
    }
}

enum Task {
    Show(Job),
    Words,
    Compare(Work),
}

fn read(args: &[&str]) -> Option<Task> {
    match args {
        ["show", mode, seed] => {
            let job = Job::new(Mode::from_name(mode)?, seed.parse().ok()?);
            Some(Task::Show(job))
        }
        ["words"] => Some(Task::Words),
        [modes, count] => read(&[modes, count, "0"]),
        [modes, count, seed] => read(&[modes, count, seed, "1"]),
        [modes, count, seed, threads] => Some(Task::Compare(Work {
            modes: match *modes {
                "all" => Mode::ALL.to_vec(),
                mode => vec![Mode::from_name(mode)?],
            },
            count: count.parse().ok()?,
            seed: seed.parse().ok()?,
            threads: threads.parse().ok()?,
        })),
        _ => None,
    }
}

struct Work {
    modes: Vec<Mode>,
    count: u64,
    seed: u64,
    threads: usize,
}

impl Work {
    /// Prints the tallies, or gives mode and seed of a job with a difference.
    fn run(&self) -> Result<(), (Mode, u64)> {
        let start = Instant::now();
        let mut all = Tally::default();
        for mode in &self.modes {
            let start = Instant::now();
            let tally = self.run_mode(*mode).map_err(|seed| (*mode, seed))?;
            print(&format!("{mode:?}"), &tally, start);
            all += tally;
        }
        print("all", &all, start);
        println!("\n{}", all.reach_table());
        Ok(())
    }

    /// The jobs of a mode, shared among the threads.
    fn run_mode(&self, mode: Mode) -> Result<Tally, u64> {
        let next = AtomicU64::new(self.seed);
        let end = self.seed + self.count;
        let run = || -> Result<Tally, u64> {
            let mut tally = Tally::default();
            loop {
                let seed = next.fetch_add(1, Ordering::Relaxed);
                if seed >= end {
                    return Ok(tally);
                }
                let job = Job::new(mode, seed);
                tally += compare(&job, Rules::document_01()).map_err(|_| seed)?;
                if seed.is_multiple_of(TYPED) {
                    tally.typed_calls += typed::compare(&job).map_err(|_| seed)?;
                }
            }
        };
        thread::scope(|scope| {
            let threads: Vec<_> = (0..self.threads).map(|_| scope.spawn(run)).collect();
            let mut all = Tally::default();
            for thread in threads {
                all += thread.join().expect("a tally")?;
            }
            Ok(all)
        })
    }
}

fn print(name: &str, tally: &Tally, start: Instant) {
    let seconds = start.elapsed().as_secs_f64();
    let rate = tally.calls as f64 / seconds;
    println!("{name}: {tally}, {seconds:.1} s, {rate:.0} calls/s");
}

fn show_difference(mode: Mode, seed: u64) {
    let job = Job::new(mode, seed);
    let difference = difference(&job).expect("a difference, as before");
    println!("{mode:?} seed {seed}: {difference}");
    let short = shrunk(&job, |job| self::difference(job).is_some());
    println!("shrunk to {} calls:", calls(&short.list).count());
    show(&short);
}

fn difference(job: &Job) -> Option<String> {
    match compare(job, Rules::document_01()) {
        Err(difference) => Some(format!("{difference:x?}")),
        Ok(_) => typed::compare(job).err(),
    }
}

fn show(job: &Job) {
    println!("{:?}, {:?}", job.opening, job.cut);
    let mut model = Index::open(&job.opening, Rules::document_01());
    for call in calls(&job.list) {
        let served = model.call(call);
        for word in call {
            print!("{word:08x} ");
        }
        match served.panic {
            None => println!("= {:08x}", served.word),
            Some(panic) => println!(
                "= {:08x}, where the original panics: {panic:?}",
                served.word
            ),
        }
    }
}
