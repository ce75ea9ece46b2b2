//! Compares the port's doors with original and model, byte by byte.
//!
//! `doors COUNT [SEED]` takes all small work and COUNT random pieces of each
//! operation, and of the label map all small damage and runs of COUNT steps, and
//! prints how often each number was returned.

use std::{collections::BTreeMap, env, process::ExitCode, time::Instant};

use harness::{
    doors::{
        compare,
        label_samples::random_run,
        labels::{compare_run, compare_small, Tally},
        samples::{exhaustive, random},
        Difference,
    },
    leaves::Leaf,
    rng::Rng,
};

fn main() -> ExitCode {
    let mut args = env::args().skip(1).map(|arg| arg.parse::<u64>().ok());
    let (Some(Some(count)), Some(seed)) = (args.next(), args.next().unwrap_or(Some(0))) else {
        eprintln!("usage: doors COUNT [SEED]");
        return ExitCode::FAILURE;
    };
    let compared = Leaf::ALL
        .into_iter()
        .try_for_each(|leaf| compare_all(leaf, count, seed))
        .map_err(|difference| difference.to_string())
        .and_then(|()| compare_labels(count, seed));
    match compared {
        Ok(()) => ExitCode::SUCCESS,
        Err(difference) => {
            println!("{difference}");
            ExitCode::FAILURE
        }
    }
}

fn compare_all(leaf: Leaf, count: u64, seed: u64) -> Result<(), Box<Difference>> {
    let start = Instant::now();
    let mut rng = Rng::new(seed);
    let mut returned = BTreeMap::new();
    let mut small = 0;
    for lent in exhaustive(leaf) {
        compare(&lent)?;
        small += 1;
    }
    for _ in 0..count {
        let number = compare(&random(leaf, &mut rng))?;
        *returned.entry(number).or_insert(0) += 1;
    }
    println!(
        "{leaf:?}: {small} small, {count} random, returned {returned:?}, {:.1} s",
        start.elapsed().as_secs_f32()
    );
    Ok(())
}

fn compare_labels(count: u64, seed: u64) -> Result<(), String> {
    let start = Instant::now();
    let mut small = Tally::default();
    compare_small(&mut small)?;
    println!("labels, small maps: {small}");
    let mut rng = Rng::new(seed);
    let mut random = Tally::default();
    while random.steps() < count {
        compare_run(&random_run(&mut rng), &mut random)?;
    }
    println!(
        "labels, random runs: {} steps, {random}, {:.1} s",
        random.steps(),
        start.elapsed().as_secs_f32()
    );
    Ok(())
}
