//! Compares original and model on the operations below the index.
//!
//! `leaves COUNT [SEED]` takes all small work and COUNT random pieces of each
//! operation, and of label runs as many as have COUNT steps.

use std::{env, process::ExitCode, time::Instant};

use harness::{
    leaves::{
        by_model, by_original, labels,
        samples::{exhaustive, random, random_labels},
        vector, Leaf, Work,
    },
    rng::Rng,
};

fn main() -> ExitCode {
    let mut args = env::args().skip(1).map(|arg| arg.parse::<u64>().ok());
    let (Some(Some(count)), Some(seed)) = (args.next(), args.next().unwrap_or(Some(0))) else {
        eprintln!("usage: leaves COUNT [SEED]");
        return ExitCode::FAILURE;
    };
    match Leaf::ALL
        .into_iter()
        .try_for_each(|leaf| compare(leaf, count, seed))
        .and_then(|()| compare_labels(count, seed))
    {
        Ok(()) => ExitCode::SUCCESS,
        Err(difference) => {
            println!("{difference}");
            ExitCode::FAILURE
        }
    }
}

fn compare(leaf: Leaf, count: u64, seed: u64) -> Result<(), String> {
    let start = Instant::now();
    let mut rng = Rng::new(seed);
    let small = exhaustive(leaf);
    let (in_full, mut refused) = (small.len(), 0);
    let drawn = (0..count).map(|_| random(leaf, &mut rng));
    for work in small.into_iter().chain(drawn) {
        refused += usize::from(agree(&work)?);
    }
    println!(
        "{leaf:?}: {in_full} small, {count} random, {refused} refused, {:.1} s",
        start.elapsed().as_secs_f32()
    );
    Ok(())
}

/// Whether the work is refused, or what the two answer differently.
fn agree(work: &Work) -> Result<bool, String> {
    let original = by_original::answer(work);
    let model = by_model::answer(work);
    if original != model {
        return Err(format!("{}\nmodel {model:x?}", vector(work, &original)));
    }
    Ok(original.is_err())
}

fn compare_labels(count: u64, seed: u64) -> Result<(), String> {
    let start = Instant::now();
    let mut rng = Rng::new(seed);
    let mut steps = 0;
    while steps < count {
        let work = random_labels(&mut rng);
        let original = labels::by_original(&work);
        let model = labels::by_model(&work);
        if original != model {
            let line = labels::vector(&work, &original);
            return Err(format!("{line}\nmodel {model:x?}"));
        }
        steps += work.steps.len() as u64;
    }
    println!(
        "labels: {steps} steps, {:.1} s",
        start.elapsed().as_secs_f32()
    );
    Ok(())
}
