//! Compares the port's check of an index image with the model, and makes the
//! mutation check of the model's rules.
//!
//! `images COUNT [SEED]` takes small images with every change, headers at their
//! limits and COUNT random images. It prints how many were sound and how many
//! were refused, and for each rule how many break it, and it alone; a rule that
//! nothing breaks alone could be left out unnoticed.
//!
//! `images stack` prints the least stack on which the port serves the deepest
//! trees.
//!
//! `images chain` writes the deepest tree that `crates/stack_case` reads.
//!
//! `images words` writes the small images that `crates/image_cases` reads, and
//! `images answers` what it has to write, by the model alone.

use std::{
    env,
    io::{self, Write},
    process::ExitCode,
    time::Instant,
};

use harness::{
    images::{
        cases,
        chains::Form,
        compare,
        samples::{headers, random_images, small_images},
        stack, Tally,
    },
    model::{soundness::Rule, Kind},
};

fn main() -> ExitCode {
    let args: Vec<String> = env::args().skip(1).collect();
    match &args[..] {
        [first] if first == "stack" => return ended(print_stacks().is_ok()),
        [first] if first == "chain" => {
            return written(&stack::deepest(Kind::Monomial, Form::LessLeaves))
        }
        [first] if first == "words" => return written(&cases::words()),
        [first] if first == "answers" => return written(cases::answers().as_bytes()),
        [first, rest @ ..] if first == "stack" => {
            return ended(stack::try_out(rest) == Some(true));
        }
        _ => (),
    }
    let mut args = args.iter().map(|arg| arg.parse::<u64>().ok());
    let (Some(Some(count)), Some(seed)) = (args.next(), args.next().unwrap_or(Some(0))) else {
        eprintln!("usage: images COUNT [SEED] | images stack | images chain | images words | images answers");
        return ExitCode::FAILURE;
    };
    match compare_all(count, seed) {
        Ok(tally) => print_rules(&tally),
        Err(difference) => {
            println!("{difference}");
            ExitCode::FAILURE
        }
    }
}

fn compare_all(count: u64, seed: u64) -> Result<Tally, String> {
    let mut tally = Tally::default();
    let start = Instant::now();
    let mut visit = |image: &[u8]| compare(image, &mut tally);
    small_images(&mut visit)?;
    println!(
        "small images: {tally}, {:.1} s",
        start.elapsed().as_secs_f32()
    );
    let mut visit = |image: &[u8]| compare(image, &mut tally);
    headers(&mut visit)?;
    println!(
        "and headers: {tally}, {:.1} s",
        start.elapsed().as_secs_f32()
    );
    let mut visit = |image: &[u8]| compare(image, &mut tally);
    random_images(count, seed, &mut visit)?;
    println!(
        "and random ones: {tally}, {:.1} s",
        start.elapsed().as_secs_f32()
    );
    Ok(tally)
}

fn written(bytes: &[u8]) -> ExitCode {
    ended(io::stdout().write_all(bytes).is_ok())
}

fn ended(well: bool) -> ExitCode {
    match well {
        true => ExitCode::SUCCESS,
        false => ExitCode::FAILURE,
    }
}

fn print_stacks() -> io::Result<()> {
    let program = env::current_exe()?;
    for kind in [Kind::Monomial, Kind::Ratio] {
        for form in Form::ALL {
            let bytes = stack::least(&program, kind, form)?;
            println!("{kind:?}, {form:?}: {} KiB of stack suffice", bytes >> 10);
        }
    }
    Ok(())
}

fn print_rules(tally: &Tally) -> ExitCode {
    println!("\n| rule | in words | broken | alone |");
    println!("|---|---|---|---|");
    for rule in Rule::ALL.iter().copied() {
        let count = tally.of(rule);
        println!(
            "| {rule:?} | {} | {} | {} |",
            rule.describe(),
            count.broken,
            count.alone
        );
    }
    let unnoticed = tally.unnoticed();
    println!(
        "\n{} rules, {} could be left out unnoticed",
        Rule::ALL.len(),
        unnoticed.len()
    );
    ended(unnoticed.is_empty())
}
