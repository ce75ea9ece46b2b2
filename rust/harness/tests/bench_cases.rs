//! Document 01's bench cases, asked of original and model alike.

use harness::{
    leaves::{
        by_model, by_original,
        labels::{self, LabelWork, Labelled, Step},
        Leaf, Operands, Work,
    },
    model::{mutation::Rules, Index, Kind, Opening},
    original_run::{original_run, Original},
    words::{calls, monomial_words, ratio_words, word, ANSWER, CALL, INDEX},
};

fn monomial(vars: &[(u16, i32)]) -> Vec<u32> {
    monomial_words(vars.iter().copied())
}

/// The answer, which must be the same from both sides.
fn answer(leaf: Leaf, variables: usize, operands: Operands) -> Vec<u32> {
    let work = Work {
        leaf,
        variables: variables as u32,
        room: 65,
        operands,
    };
    let answer = by_original::answer(&work).unwrap();
    assert_eq!(by_model::answer(&work).unwrap(), answer);
    answer
}

fn of_two(leaf: Leaf, a: &[(u16, i32)], b: &[(u16, i32)]) -> Vec<u32> {
    answer(leaf, 4, Operands::Two(monomial(a), monomial(b)))
}

fn of_masked(leaf: Leaf, maxima: &[u32], vars: &[(u16, i32)]) -> Vec<u32> {
    let operands = Operands::Masked {
        maxima: maxima.to_vec(),
        monomial: monomial(vars),
    };
    answer(leaf, maxima.len(), operands)
}

fn mask(maxima: &[u32], vars: &[(u16, i32)]) -> u32 {
    of_masked(Leaf::Mask, maxima, vars)[0]
}

/// The answers of a label map to powers of x0 in this order.
fn label_run(powers: impl IntoIterator<Item = i32>, rebuild_after: usize) -> Vec<Labelled> {
    let value = |power| {
        let ratio = ratio_words((power != 0).then_some((0, power)));
        Step::Value([vec![word(INDEX, 0)], ratio].concat())
    };
    let mut steps: Vec<Step> = powers.into_iter().map(value).collect();
    if rebuild_after < steps.len() {
        steps.insert(rebuild_after, Step::Rebuild);
    }
    let work = LabelWork {
        variables: 1,
        capacity: 4096,
        steps,
    };
    let answers = labels::by_original(&work);
    assert_eq!(labels::by_model(&work), answers);
    answers
}

const NO_REBUILD: usize = usize::MAX;

#[test]
fn labels_and_rebuild() {
    use Labelled::{Label, Rebuilt};
    assert_eq!(
        label_run([0, -1, 1], NO_REBUILD),
        [2_147_483_647, 1_073_741_823, 3_221_225_471].map(Label)
    );
    // Three rising values, a rebuild, and the three asked again.
    let after = &label_run([1, 2, 3, 1, 2, 3], 3)[3..];
    let dealt = [1_073_741_823, 2_147_483_647, 3_221_225_471].map(Label);
    assert_eq!(after, [&[Rebuilt][..], &dealt].concat());
}

#[test]
fn labels_run_out() {
    use Labelled::{Label, Refused};
    let falling = label_run((0..33).map(|k| -k), NO_REBUILD);
    assert_eq!(falling[31..], [Label(0), Refused(10)]);
    let rising = label_run(0..34, NO_REBUILD);
    assert_eq!(rising[32..], [Label(u32::MAX), Refused(10)]);
}

#[test]
fn masks() {
    assert_eq!(mask(&[33], &[(0, 1)]), 0);
    assert_eq!(mask(&[33], &[(0, 2)]), 1);
    assert_eq!(mask(&[33], &[(0, 32)]), 0x7FFF_FFFF);
    assert_eq!(mask(&[33], &[(0, 33)]), 0xFFFF_FFFF);
    for power in [1, 2, 100, 32_767] {
        assert_eq!(mask(&[1; 3], &[(0, power)]), 0x7FF);
        assert_eq!(mask(&[1; 3], &[(2, power)]), 0xFFC0_0000);
        assert_eq!(mask(&[1; 33], &[(32, power)]), 0);
    }
}

#[test]
fn monomials() {
    let quotient = of_two(Leaf::FractionDivision, &[(1, 2)], &[(1, 2), (0, 1)]);
    assert_eq!(quotient, ratio_words([(0, -1)]));
    let greater = word(ANSWER, 2);
    assert_eq!(of_two(Leaf::Ord, &[(1, 2)], &[(1, 1), (0, 1)]), [greater]);
    assert_eq!(of_masked(Leaf::Update, &[1, 1], &[(1, 1), (0, 5)]), [1, 1]);
    assert_eq!(monomial(&[(3, 2), (0, 1)]), [0x1003_0002, 0x1000_0001, 2]);
    assert_eq!(monomial(&[]), [0]);
}

fn opening(variables: usize) -> Opening {
    Opening {
        kind: Kind::Monomial,
        capacity: 100,
        maxima: vec![1; variables],
    }
}

fn call(number: u32, vars: &[(u16, i32)]) -> Vec<u32> {
    [vec![word(CALL, number)], monomial(vars)].concat()
}

/// The number of splits and the listing after a list, the same from both sides.
fn after(opening: &Opening, list: &[u32]) -> (usize, Vec<u32>) {
    let mut model = Index::open(opening, Rules::document_01());
    let mut original = Original::open(opening);
    for call in calls(list) {
        assert_eq!(Ok(model.call(call).word), original.call(call));
    }
    let listing = model.list(usize::MAX).unwrap();
    assert_eq!(original.into_listing().as_ref(), Some(&listing));
    (model.branches().len(), listing)
}

#[test]
fn sixty_four_unsplit_sixty_five_split() {
    for (entries, splits) in [(64, 0), (65, 1)] {
        let inserts = (1..=entries).flat_map(|power| call(0, &[(0, power)]));
        let list: Vec<u32> = inserts.chain(call(1, &[])).collect();
        assert_eq!(after(&opening(1), &list).0, splits);
    }
}

#[test]
fn averages_round_up() {
    // 3 and 6 give 5, so 4 stays on the less side; 3 and 4 give 4.
    for (powers, other) in [([6, 5, 4, 3], 2), ([4, 4, 3, 3], 2)] {
        let ones = |power: i32| (0..17).flat_map(move |_| call(0, &[(0, power)]));
        let inserts = powers.into_iter().flat_map(ones);
        let list: Vec<u32> = inserts.chain(call(1, &[])).collect();
        let (splits, listing) = after(&opening(1), &list);
        assert_eq!(splits, 1);
        let less: Vec<u32> = powers[other..]
            .iter()
            .flat_map(|power| monomial(&[(0, *power)]).repeat(17))
            .collect();
        assert_eq!(listing[..less.len()], less);
    }
}

#[test]
fn powers_at_the_limit() {
    let list = [call(0, &[(0, 32_767)]), call(0, &[(0, 32_768)])].concat();
    let answers = [0x4000_0000, 0x5000_0007];
    let mut model = Index::open(&opening(4), Rules::document_01());
    assert_eq!(model.run(&list, 2).unwrap(), answers);
    let original = original_run(&opening(4), &list).unwrap();
    assert_eq!(original, answers.map(Ok));
}

#[test]
fn replay() {
    let list = [
        0x6000_0000,
        0x1000_0002,
        1,
        0x6000_0001,
        0x1000_0003,
        1,
        0x6000_0001,
        0x1001_0001,
        1,
    ];
    let answers = [0x4000_0000, 0x4000_0001, 0x4000_0000];
    let mut model = Index::open(&opening(4), Rules::document_01());
    assert_eq!(model.run(&list, 3).unwrap(), answers);
    let original = original_run(&opening(4), &list).unwrap();
    assert_eq!(original, answers.map(Ok));
}

#[test]
fn lists_refused_whole() {
    let mut model = Index::open(&opening(4), Rules::document_01());
    assert_eq!(model.run(&[0], 9), Err(4));
    assert_eq!(original_run(&opening(4), &[0]), Err(4));
    assert_eq!(model.run(&[], 0), Ok(vec![]));
    assert_eq!(original_run(&opening(4), &[]), Ok(vec![]));
    assert_eq!(model.run(&call(1, &[]), 0), Err(5));
    assert_eq!(model.list(0), Ok(vec![]));
}
