//! The port's doors, byte by byte.

use harness::{
    doors::{
        compare,
        label_samples::random_run,
        labels::{compare_run, compare_small, Tally},
        samples::{exhaustive, random},
        Lent,
    },
    leaves::Leaf,
    rng::Rng,
};

const RANDOM: usize = 20_000;
const LABEL_STEPS: u64 = 20_000;

fn agree(lent: &Lent) {
    if let Err(difference) = compare(lent) {
        panic!("{difference}");
    }
}

#[test]
fn small_work_in_full() {
    for leaf in Leaf::ALL {
        for lent in exhaustive(leaf) {
            agree(&lent);
        }
    }
}

#[test]
fn random_work() {
    let mut rng = Rng::new(1);
    for leaf in Leaf::ALL {
        for _ in 0..RANDOM {
            agree(&random(leaf, &mut rng));
        }
    }
}

#[test]
fn small_label_maps_with_every_damage() {
    compare_small(&mut Tally::default()).unwrap();
}

#[test]
fn random_label_runs() {
    let mut rng = Rng::new(1);
    let mut tally = Tally::default();
    while tally.steps() < LABEL_STEPS {
        compare_run(&random_run(&mut rng), &mut tally).unwrap();
    }
}
