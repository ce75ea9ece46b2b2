//! The operations below the index, and the order.

use harness::{
    grevlex::compare_orders,
    leaves::{
        by_model, by_original, labels,
        samples::{exhaustive, random, random_labels},
        Leaf,
    },
    rng::Rng,
};

const RANDOM: usize = 20_000;
const LABEL_RUNS: usize = 500;

#[test]
fn small_work_in_full() {
    for work in Leaf::ALL.into_iter().flat_map(exhaustive) {
        assert_eq!(
            by_original::answer(&work),
            by_model::answer(&work),
            "{work:x?}"
        );
    }
}

#[test]
fn random_work() {
    let mut rng = Rng::new(1);
    for leaf in Leaf::ALL {
        for _ in 0..RANDOM {
            let work = random(leaf, &mut rng);
            assert_eq!(
                by_original::answer(&work),
                by_model::answer(&work),
                "{work:x?}"
            );
        }
    }
}

#[test]
fn random_label_runs() {
    let mut rng = Rng::new(1);
    for _ in 0..LABEL_RUNS {
        let work = random_labels(&mut rng);
        assert_eq!(
            labels::by_original(&work),
            labels::by_model(&work),
            "{work:x?}"
        );
    }
}

#[test]
fn grevlex_is_the_order() {
    let report = compare_orders();
    assert!(report.difference.is_none(), "{report:?}");
}
