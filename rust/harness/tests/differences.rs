//! The differences between original and document 01, each with its smallest
//! input. docs/DIFFERENCES.md lists them.

use std::panic::{catch_unwind, AssertUnwindSafe};

use divisor_index::{divmask, monomial as port, Refusal};
use harness::{
    model::{mutation::Rules, query::Panic, Index, Kind, Opening},
    order::Order,
    original_run::original_run,
};
use original::{
    oracle::{monomial, variables, Monomial, Syzygies},
    polynomial::divmask::MaximumExponentsTracker,
};

fn opening(kind: Kind) -> Opening {
    Opening {
        kind,
        capacity: 65,
        maxima: vec![1],
    }
}

/// The last answer of a list, from the original and from the model.
fn last(kind: Kind, list: &[u32]) -> (Result<u32, Panic>, u32) {
    let opening = opening(kind);
    let original = original_run(&opening, list).unwrap();
    let mut model = Index::open(&opening, Rules::document_01());
    let answers = model.run(list, original.len()).unwrap();
    (*original.last().unwrap(), *answers.last().unwrap())
}

/// 65 times one, then whether one is contained.
#[test]
fn sixty_five_equal_monomials() {
    let insert = [0x6000_0000, 0];
    let contained = [0x6000_0001, 0];
    for (entries, original) in [(64, Ok(0x4000_0001)), (65, Err(Panic::RepeatedElements))] {
        let list = [insert.repeat(entries), contained.to_vec()].concat();
        assert_eq!(last(Kind::Monomial, &list), (original, 0x4000_0001));
    }
}

/// 65 times index 0, signature one, lm one, then a low base divisor.
#[test]
fn sixty_five_equal_entries() {
    let insert = [0x6000_0002, 0x3000_0000, 0, 0];
    let low = [0x6000_0005, 0x3000_0000, 0];
    for (entries, original) in [(64, Ok(0x4000_0001)), (65, Err(Panic::RepeatedElements))] {
        let list = [insert.repeat(entries), low.to_vec()].concat();
        assert_eq!(last(Kind::Ratio, &list), (original, 0x4000_0001));
    }
}

/// One entry, index 0, signature one, lm one, and a high base divisor for its
/// own ratio and lm, then for a ratio above.
#[test]
fn high_base_divisor_not_above() {
    let insert = [0x6000_0002, 0x3000_0000, 0, 0];
    let equal = [0x6000_0004, 0x3000_0000, 0, 0];
    let lower = [0x6000_0004, 0x3000_0001, 0, 0];
    for query in [equal, lower] {
        let list = [insert, query].concat();
        assert_eq!(
            last(Kind::Ratio, &list),
            (Err(Panic::NotAbove), 0x4000_0000)
        );
    }
}

/// A panic leaves the original without the entries of the nodes it was in.
#[test]
fn a_panic_loses_entries() {
    let mut index = Syzygies::<Order>::new(&[1]);
    for _ in 0..65 {
        index.insert(monomial(&[]));
    }
    let search = || index.contains_divisor(&monomial(&[]));
    assert!(catch_unwind(AssertUnwindSafe(search)).is_err());
    assert!(index.to_vec().is_empty());
}

/// x0^32767 · x0.
#[test]
fn power_above_the_highest() {
    let (a, b): (Monomial<Order>, Monomial<Order>) =
        (monomial(&[(0, 32_767)]), monomial(&[(0, 1)]));
    assert!(variables(&(a * b)).eq([(&0, &32_768)]));
    let product = port::mul(1, &[0x1000_7FFF, 1], &[0x1000_0001, 1]);
    assert_eq!(product, Err(Refusal::PowerTooLarge));
}

/// The gcd of one and one.
#[test]
fn sixty_five_variables() {
    assert_eq!(port::gcd(64, &[0], &[0]), Ok(vec![0]));
    assert_eq!(port::gcd(65, &[0], &[0]), Err(Refusal::Parameters));
}

/// One variable with maximum 2: beyond 0 percent, but not since a reset.
#[test]
fn growth_since_the_beginning() {
    let mut original = MaximumExponentsTracker::<i32>::new(1);
    original.update(&monomial::<Order, i32>(&[(0, 2)]));
    assert!(original.has_grown_beyond_percentage(0));
    original.reset_tracking();
    assert!(!original.has_grown_beyond_percentage(0));

    let mut port = divmask::MaximumExponentsTracker::new(1);
    port.update(&[0x1000_0002, 1]).unwrap();
    assert_eq!(port.has_grown_beyond_percentage(0), Ok(true));
}
