//! Functions of the original's basis_calculator.rs, without S-pairs, and its
//! `regular_reduce`, over the indexes of `compat`. The solver's types are cut down to
//! what they use.

mod solver;

use std::{cell::RefCell, rc::Rc};

use divisor_index::{compat, Config, Product};
use solver::{
    regular_reduce, BasisCalculator, Bit, DivMask, MaskedMonomialRef, MaskedSignature, Monomial,
    Polynomial, Ratio, RegularReductionResult, SignPoly, Term,
};

type Pairs<'a> = &'a [(u16, i32)];
type Calculator = BasisCalculator<u8, Bit, i32>;
type Poly = Rc<RefCell<SignPoly<u8, Bit, i32>>>;

fn monomial(variables: Pairs<'_>) -> Monomial<u8, i32> {
    solver::monomial(variables)
}

/// The sum of these, which fall.
fn polynomial(monomials: &[Monomial<u8, i32>]) -> Polynomial<u8, Bit, i32> {
    assert!(monomials.windows(2).all(|pair| pair[0] > pair[1]));
    let term = |monomial: &Monomial<u8, i32>| Term {
        coefficient: Bit(true),
        monomial: monomial.clone(),
    };
    let terms = monomials.iter().map(term).collect();
    Polynomial { terms }
}

fn signature(idx: u32, variables: Pairs<'_>) -> MaskedSignature<u8, i32> {
    MaskedSignature::new(idx, monomial(variables))
}

/// An element whose only term is the leading one.
fn element(idx: u32, sign: Pairs<'_>, lm: Monomial<u8, i32>) -> SignPoly<u8, Bit, i32> {
    SignPoly::new(0, signature(idx, sign), polynomial(&[lm]))
}

fn masked(monomial: &Monomial<u8, i32>) -> MaskedMonomialRef<'_, u8, i32> {
    MaskedMonomialRef(&DivMask, monomial)
}

fn same(found: Option<Poly>, expected: Option<&Poly>) -> bool {
    match (&found, expected) {
        (Some(found), Some(expected)) => Rc::ptr_eq(found, expected),
        _ => found.is_none() && expected.is_none(),
    }
}

/// The basis of the repository's README.
fn calculator() -> Calculator {
    let mut calculator = BasisCalculator::new(4);
    for (idx, sign, lm) in [
        (0, &[][..], &[(3, 2)][..]),
        (1, &[], &[(1, 2)]),
        (2, &[], &[(3, 1), (1, 1)]),
        (2, &[(1, 1)], &[(2, 1), (1, 1), (0, 1)]),
        (2, &[(3, 1)], &[(2, 2), (1, 1)]),
    ] {
        calculator.insert_poly(element(idx, sign, monomial(lm)));
    }
    calculator
}

fn check_searches(calculator: &Calculator) {
    let basis = calculator.get_basis();
    let index = &basis.by_sign_lm_ratio_and_lm;

    let ratio = Ratio::new(2, monomial(&[(3, 1), (2, -2), (1, -1)]));
    let regular = basis.find_a_reducer(&ratio, masked(&monomial(&[(2, 2), (1, 2)])));
    assert!(same(regular, Some(&basis.polys[1])));
    let singular = basis.find_a_reducer(&ratio, masked(&monomial(&[(2, 3), (1, 1)])));
    assert!(same(singular, Some(&basis.polys[4])));
    let none = basis.find_a_reducer(&ratio, masked(&monomial(&[(2, 3)])));
    assert!(same(none, None));

    let ratio = Ratio::new(1, monomial(&[(2, -2), (1, -1)]));
    let lm = monomial(&[(3, 1), (2, 2), (1, 1)]);
    let high = index.find_high_base_divisor(&ratio, masked(&lm));
    assert!(same(high, Some(&basis.polys[4])));
    let poly = element(2, &[(3, 1), (1, 1)], lm);
    let low = index.find_low_base_divisor(&poly);
    assert!(same(low, Some(&basis.polys[3])));

    let sign = &poly.masked_signature;
    assert!(index.test_singular_criterion(sign, &monomial(&[(2, 2), (1, 2)])));
    assert!(!index.test_singular_criterion(sign, &monomial(&[(0, 1)])));
}

#[test]
fn searches_before_and_after_a_rebuild() {
    let mut calculator = calculator();
    check_searches(&calculator);
    calculator.rebuild_structures();
    check_searches(&calculator);
}

#[test]
fn koszul_syzygies() {
    let mut calculator = calculator();
    // e1 · x3^2, then e2 · x3^2, whose monomial is known.
    calculator.add_koszul_syzygies(&[(0, 1), (0, 2)]);
    assert_eq!(calculator.get_num_syzygies(), 1);
    // x3 · e2 · x1^2, which x3^2 does not divide.
    calculator.add_koszul_syzygies(&[(1, 4)]);
    assert_eq!(calculator.get_num_syzygies(), 2);
    calculator.rebuild_structures();
    calculator.add_koszul_syzygies(&[(0, 1), (1, 4)]);
    assert_eq!(calculator.get_num_syzygies(), 2);
    calculator.clear_syzygies();
    assert_eq!(calculator.get_num_syzygies(), 0);
}

/// x1^2 + x0 with signature e0, and x1·x0^2 + x0 with e1.
fn two() -> Calculator {
    let mut calculator = BasisCalculator::new(2);
    let elements: [[Pairs; 2]; 2] = [[&[(1, 2)], &[(0, 1)]], [&[(1, 1), (0, 2)], &[(0, 1)]]];
    for (idx, terms) in elements.into_iter().enumerate() {
        let (sign, polynomial) = (signature(idx as u32, &[]), polynomial(&terms.map(monomial)));
        calculator.insert_poly(SignPoly::new(idx as u32, sign, polynomial));
    }
    calculator
}

/// The name of a result, and the terms that are left.
type Shown = (&'static str, Vec<Vec<(u16, i32)>>);

fn shown(result: RegularReductionResult<u8, Bit, i32>) -> Shown {
    let left = |polynomial: Polynomial<u8, Bit, i32>| {
        let terms = polynomial.terms.iter();
        terms
            .map(|term| term.monomial.variables().collect())
            .collect()
    };
    match result {
        RegularReductionResult::Reduced(reduced) => {
            assert_eq!(reduced.idx, 2);
            ("reduced", left(reduced.polynomial))
        }
        RegularReductionResult::Singular => ("singular", vec![]),
        RegularReductionResult::Zero(m_sign) => {
            assert_eq!(m_sign.signature.idx, 2);
            ("zero", vec![])
        }
        RegularReductionResult::NonZeroConstant(constant) => ("constant", left(constant)),
    }
}

/// The original's reduction, of a polynomial with signature e(idx), with a search for
/// each term, and with kept reducers, which lend so many lists.
fn reduce_both_ways(idx: u32, terms: &[Pairs<'_>]) -> (Shown, usize) {
    let calculator = two();
    let basis = calculator.get_basis();
    let terms: Vec<_> = terms.iter().map(|term| monomial(term)).collect();
    let (m_sign, poly) = (signature(idx, &[]), polynomial(&terms));
    let one_by_one = regular_reduce(2, m_sign, poly.clone(), basis, |ratio, term, _| {
        basis.find_a_reducer(ratio, term)
    });
    let m_sign = signature(idx, &[]);
    let mut reducers = basis.by_sign_lm_ratio_and_lm.reducers(&m_sign);
    let kept = regular_reduce(2, m_sign, poly, basis, |_, term, others| {
        reducers.find_a_reducer_with(term, others.keys())
    });
    let kept = shown(kept);
    assert_eq!(kept, shown(one_by_one));
    (kept, reducers.lists())
}

#[test]
fn regular_reductions() {
    // x1^3·x0 + x1·x0^2 + x1: by the first element x1·x0^2 vanishes, and x1 is left.
    let terms: [Pairs; 3] = [&[(1, 3), (0, 1)], &[(1, 1), (0, 2)], &[(1, 1)]];
    let (reduced, lists) = reduce_both_ways(2, &terms);
    assert_eq!((reduced, lists), (("reduced", vec![vec![(1, 1)]]), 1));
    // x1^3 + x0^2: x1·x0 + x0^2 is left, and x1·x0 is new.
    let (reduced, lists) = reduce_both_ways(2, &[&[(1, 3)], &[(0, 2)]]);
    let left = vec![vec![(1, 1), (0, 1)], vec![(0, 2)]];
    assert_eq!((reduced, lists), (("reduced", left), 2));
    // x1·x0^2 + x0 with signature e1 is the second element itself, with e2 it is zero.
    let terms: [Pairs; 2] = [&[(1, 1), (0, 2)], &[(0, 1)]];
    assert_eq!(reduce_both_ways(1, &terms), (("singular", vec![]), 1));
    assert_eq!(reduce_both_ways(2, &terms), (("zero", vec![]), 1));
    // x1^2 + x0 + 1: the constant is left, for which nothing is looked for.
    let (reduced, lists) = reduce_both_ways(2, &[&[(1, 2)], &[(0, 1)], &[]]);
    assert_eq!((reduced, lists), (("constant", vec![vec![]]), 1));
}

/// All terms can be asked for beforehand; one that is refused is so when it is
/// looked for.
#[test]
#[should_panic(expected = "the index refuses: words not canonical")]
fn a_refused_term_panics_when_looked_for() {
    let calculator = two();
    let index = &calculator.get_basis().by_sign_lm_ratio_and_lm;
    let mut reducers = index.reducers(&signature(2, &[]));
    let (good, bad) = (monomial(&[(1, 2)]), monomial(&[(2, 1)]));
    reducers.ask([&good, &bad]);
    let reducer = reducers.find_a_reducer(&good);
    assert!(same(reducer, Some(&calculator.get_basis().polys[0])));
    assert_eq!(reducers.lists(), 1);
    reducers.find_a_reducer(&bad);
}

#[test]
fn elements_are_given_back() {
    let polys = calculator().into_polys();
    assert_eq!(polys.len(), 5);
}

/// The i-th of many monomials that differ.
fn numbered(i: i32) -> Monomial<u8, i32> {
    monomial(&[(1, 1 + i / 10), (0, 1 + i % 10)])
}

/// It grows past its first capacity, and lists in the order of the tree, which a
/// search of more than 64 has split.
#[test]
fn growth_and_order() {
    let mut index = compat::MonomialIndex::new(2, (), vec![]);
    let mut plain = divisor_index::MonomialIndex::open(&Config::new(2, 128).unwrap());
    for i in 0..100 {
        index.insert(numbered(i));
        plain.insert(&numbered(i)).unwrap();
    }
    assert_eq!(index.len(), 100);
    assert!(!index.contains_divisor(monomial(&[(1, 9)])));
    assert!(!plain.contains_divisor(&[(1, 9)]).unwrap());
    let pairs = |m: &Monomial<u8, i32>| m.variables().collect::<Vec<_>>();
    let listed: Vec<_> = index.to_vec().iter().map(pairs).collect();
    assert_eq!(listed, plain.to_vec().unwrap());
    assert!(listed != (0..100).map(|i| pairs(&numbered(i))).collect::<Vec<_>>());
}

#[test]
fn ratio_indexes_grow() {
    let mut index = compat::RatioMonomialIndex::new(2, (), &[]);
    let polys: Vec<Poly> = (0..100)
        .map(|i| Rc::new(RefCell::new(element(i as u32, &[], numbered(i)))))
        .collect();
    for poly in &polys {
        index.insert(Rc::clone(poly));
    }
    for poly in &polys {
        assert!(same(
            index.find_low_base_divisor(&*poly.borrow()),
            Some(poly)
        ));
    }
}

/// Doubled, a capacity of 2,049 would be one too large.
#[test]
fn any_number_grows_to_4096() {
    let one = || monomial(&[]);
    let mut index = compat::MonomialIndex::new(1, (), (0..2049).map(|_| one()).collect());
    index.insert(one());
    assert_eq!(index.len(), 2050);
}

#[test]
#[should_panic(expected = "the index refuses: capacity reached")]
fn the_4097th_is_refused() {
    let one = || monomial(&[]);
    let mut index = compat::MonomialIndex::new(1, (), (0..4096).map(|_| one()).collect());
    assert_eq!(index.len(), 4096);
    index.insert(one());
}
