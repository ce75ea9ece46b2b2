//! Prints the original's answers as test vectors, always the same for the same
//! arguments.
//!
//! `vectors text [COUNT] [SEED]` prints COUNT short ones for each operation and
//! two of any length, and as many label runs, one a line; see `leaves::vector`
//! and `leaves::labels::vector` for the form. `vectors words [COUNT] [SEED]`
//! writes the same as the words of `leaves::record`; in place of the label runs
//! it has COUNT steps or a few more of short ones, and the ends of two that
//! leave no label, as the words of `leaves::label_record`.

use std::{
    env,
    io::{self, Write},
    process::ExitCode,
};

use harness::{
    leaves::{
        by_original,
        label_record::records,
        labels,
        record::record,
        samples::{crowded_labels, random, random_labels, short_labels},
        vector, Leaf, Work,
    },
    rng::Rng,
};

/// Words of a short vector's record.
const SHORT: usize = 24;

/// Vectors of any length for each operation.
const ANY_LENGTH: usize = 2;

fn main() -> ExitCode {
    let mut args = env::args().skip(1);
    let form = args.next();
    let mut numbers = args.map(|arg| arg.parse().expect("a number"));
    let count = numbers.next().unwrap_or(50);
    let mut rng = Rng::new(numbers.next().unwrap_or(0));

    match form.as_deref() {
        Some("text") => print_text(count as usize, &mut rng),
        Some("words") => write_words(count as usize, &mut rng),
        _ => {
            eprintln!("usage: vectors text|words [COUNT] [SEED]");
            return ExitCode::FAILURE;
        }
    }
    ExitCode::SUCCESS
}

fn print_text(count: usize, rng: &mut Rng) {
    for work in draw(count, rng) {
        println!("{}", vector(&work, &by_original::answer(&work)));
    }
    for _ in 0..count {
        let work = random_labels(rng);
        println!("{}", labels::vector(&work, &labels::by_original(&work)));
    }
}

fn write_words(count: usize, rng: &mut Rng) {
    let works = draw(count, rng);
    let leaves = works.iter();
    let leaves = leaves.map(|work| record(work, &by_original::answer(work)));
    let mut out = io::stdout().lock();
    for word in leaves.chain(label_records(count, rng)).flatten() {
        out.write_all(&word.to_le_bytes()).expect("standard output");
    }
}

fn label_records(count: usize, rng: &mut Rng) -> Vec<Vec<u32>> {
    let mut steps = vec![];
    while steps.len() < count {
        steps.extend(records(&short_labels(rng)));
    }
    for rises in [false, true] {
        let mut crowded = records(&crowded_labels(rises));
        // The value with no label, and the rebuild.
        steps.extend(crowded.split_off(crowded.len() - 2));
    }
    steps
}

fn draw(count: usize, rng: &mut Rng) -> Vec<Work> {
    let mut works = vec![];
    for leaf in Leaf::ALL {
        works.extend((0..count).map(|_| draw_short(leaf, rng)));
        works.extend((0..ANY_LENGTH).map(|_| random(leaf, rng)));
    }
    works
}

fn draw_short(leaf: Leaf, rng: &mut Rng) -> Work {
    loop {
        let work = random(leaf, rng);
        if record(&work, &by_original::answer(&work)).len() <= SHORT {
            return work;
        }
    }
}
