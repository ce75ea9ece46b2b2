//! One regular reduction through kept reducers: what it finds, how many lists it
//! lends, and what is refused.

mod drawn;

use std::collections::BTreeSet;

use divisor_index::{
    Config, EntryNumber, RatioMonomialIndex, Reducer, ReducerKind, Refusal, Signature,
};
use drawn::{dense, divides, drawn, quotient, ratio_key, Monomial};

type Pairs<'a> = &'a [(u16, i32)];

const ONE: Pairs = &[];

fn sign(index: u32, monomial: Pairs<'_>) -> Signature<'_, [(u16, i32)]> {
    Signature::new(index, monomial)
}

/// A term over the field with two elements: its total, and its powers negated from
/// variable 0 on, so that terms sort as their monomials do.
type Term = (i32, [i32; 3]);

fn term(monomial: &Monomial) -> Term {
    let powers = dense(monomial);
    (powers.iter().sum(), powers.map(|power| -power))
}

fn monomial(term: &Term) -> Monomial {
    let all = [2u16, 1, 0].map(|id| (id, -term.1[id as usize]));
    all.into_iter().filter(|(_, power)| *power > 0).collect()
}

fn product(a: &Term, b: &Term) -> Term {
    (a.0 + b.0, [0, 1, 2].map(|id| a.1[id] + b.1[id]))
}

fn whole_division(a: &Term, b: &Term) -> Term {
    (a.0 - b.0, [0, 1, 2].map(|id| a.1[id] - b.1[id]))
}

struct Element {
    index: u32,
    signature: Monomial,
    /// The largest is the leading one.
    terms: BTreeSet<Term>,
}

impl Element {
    fn lm(&self) -> Monomial {
        monomial(self.terms.last().unwrap())
    }
}

/// Elements of three drawn terms and of indexes from 0 to 2.
fn elements(count: usize, seed: u32) -> Vec<Element> {
    let signatures = drawn(count, seed).into_iter().enumerate();
    let monomials = drawn(3 * count, seed + 1);
    let element = |(number, signature): (usize, _)| Element {
        index: number as u32 % 3,
        signature,
        terms: monomials[3 * number..][..3].iter().map(term).collect(),
    };
    signatures.map(element).collect()
}

fn index_of(elements: &[Element]) -> RatioMonomialIndex {
    let mut index = RatioMonomialIndex::open(&Config::new(3, 400).unwrap());
    for element in elements {
        let signature = sign(element.index, &element.signature);
        index.insert(signature, &element.lm()).unwrap();
    }
    index
}

/// Adds the multiple of an element that has this leading term, but for that term.
fn add_multiple(terms: &mut BTreeSet<Term>, element: &Element, leading: &Term) {
    let factor = whole_division(leading, element.terms.last().unwrap());
    for other in element.terms.iter().rev().skip(1) {
        let other = product(other, &factor);
        if !terms.remove(&other) {
            terms.insert(other);
        }
    }
}

/// Reduces every term by regular reducers; what finds them gets a term and those
/// below it.
fn regular_reduce(
    mut terms: BTreeSet<Term>,
    elements: &[Element],
    mut find: impl FnMut(&Term, &BTreeSet<Term>) -> Option<Reducer>,
) -> Vec<Term> {
    let mut reduced = vec![];
    while let Some(leading) = terms.pop_last() {
        match find(&leading, &terms) {
            Some(reducer) if reducer.kind == ReducerKind::Regular => {
                add_multiple(&mut terms, &elements[reducer.entry.index()], &leading);
            }
            _ => reduced.push(leading),
        }
    }
    reduced
}

/// Whether no element reduces the term regularly, by a loop over all.
fn is_irreducible(term: &Term, signature: &Monomial, elements: &[Element]) -> bool {
    let monomial = monomial(term);
    let limit = ratio_key(2, signature, &monomial);
    !elements.iter().any(|element| {
        divides(&element.lm(), &monomial)
            && ratio_key(element.index, &element.signature, &element.lm()) < limit
    })
}

/// Polynomials of twelve terms, and signatures of index 2.
fn polynomials(count: usize) -> Vec<(Monomial, BTreeSet<Term>)> {
    let terms = drawn(12 * count, 12);
    let polynomials = terms
        .chunks(12)
        .map(|terms| terms.iter().map(term).collect());
    drawn(count, 11).into_iter().zip(polynomials).collect()
}

#[test]
fn a_reduction_is_the_same_with_and_without() {
    let elements = elements(200, 7);
    let (mut one_by_one, mut kept) = (index_of(&elements), index_of(&elements));
    let (mut calls, mut lists) = (0, 0);
    for (signature, terms) in polynomials(20) {
        let expected = regular_reduce(terms.clone(), &elements, |term, _| {
            calls += 1;
            let (ratio, lm) = (quotient(&signature, &monomial(term)), monomial(term));
            let ratio = divisor_index::Ratio::new(2, &ratio);
            one_by_one.find_a_reducer(ratio, &lm).unwrap()
        });
        let mut reducers = kept.reducers(sign(2, &signature));
        let reduced = regular_reduce(terms, &elements, |term, others| {
            let others = others.iter().map(monomial);
            let found = reducers.find_a_reducer_with(&monomial(term), others);
            found.unwrap()
        });
        lists += reducers.lists();
        assert_eq!(reduced, expected);
        for term in &reduced {
            assert!(is_irreducible(term, &signature, &elements), "{term:?}");
        }
    }
    assert!(4 * lists < calls, "{lists} lists for {calls} calls");
}

/// What was asked for is known: in one list, or in none where nothing is new.
#[test]
fn known_terms_are_not_asked_for_again() {
    let mut index = index_of(&elements(100, 7));
    let mut reducers = index.reducers(sign(2, &[(1, 3)]));
    let asked: [Pairs; 3] = [&[(0, 3)], &[(1, 2)], &[(0, 3)]];
    reducers.ask(asked).unwrap();
    assert_eq!((reducers.lists(), reducers.terms()), (1, 2));
    reducers.ask(asked).unwrap();
    reducers.find_a_reducer(asked[1]).unwrap();
    let no_others = [asked[0]].into_iter().inspect(|_| panic!("looked at"));
    reducers.find_a_reducer_with(asked[0], no_others).unwrap();
    assert_eq!((reducers.lists(), reducers.terms()), (1, 2));

    // A new one alone, then a new one with a new and a known one.
    reducers.find_a_reducer(&[(2, 4)]).unwrap();
    assert_eq!((reducers.lists(), reducers.terms()), (2, 3));
    let others: [Pairs; 2] = [&[(0, 3)], &[(2, 5)]];
    reducers.find_a_reducer_with(&[(2, 6)], others).unwrap();
    assert_eq!((reducers.lists(), reducers.terms()), (3, 5));
    reducers.find_a_reducer(&[(2, 5)]).unwrap();
    assert_eq!(reducers.lists(), 3);
}

/// Within one reduction the order of the terms does not matter, nor what is asked
/// for with them.
#[test]
fn the_order_of_terms_does_not_matter() {
    let elements = elements(300, 21);
    let signature = [(2, 2), (1, 2), (0, 1)];
    let terms = drawn(400, 22);
    let mut alone = index_of(&elements);
    let mut alone = alone.reducers(sign(2, &signature));
    let mut forwards = index_of(&elements);
    let mut forwards = forwards.reducers(sign(2, &signature));
    forwards.ask(&terms).unwrap();
    let mut backwards = index_of(&elements);
    let mut backwards = backwards.reducers(sign(2, &signature));
    backwards.ask(terms.iter().rev()).unwrap();
    let mut found = 0;
    for term in &terms {
        let answer = alone.find_a_reducer(term).unwrap();
        assert_eq!(forwards.find_a_reducer(term).unwrap(), answer);
        assert_eq!(backwards.find_a_reducer(term).unwrap(), answer);
        found += usize::from(answer.is_some());
    }
    assert!(found > 100 && found < 400, "{found}");
}

/// All in three variables with one ratio, that of index 0 and one: x2·x1^9, then
/// x2·x1·x0^2, x2·x0^2, and x2^i·x1·x0^2 for i from 2 to 64.
fn sixty_six() -> RatioMonomialIndex {
    let mut index = RatioMonomialIndex::open(&Config::new(3, 100).unwrap());
    let first: [Pairs; 3] = [
        &[(2, 1), (1, 9)],
        &[(2, 1), (1, 1), (0, 2)],
        &[(2, 1), (0, 2)],
    ];
    let others = (2..=64).map(|power| vec![(2, power), (1, 1), (0, 2)]);
    for lm in first.map(<[_]>::to_vec).into_iter().chain(others) {
        index.insert(sign(0, &lm), &lm).unwrap();
    }
    assert_eq!(index.len(), 66);
    index
}

/// The reducer found for x2·x1·x0^2 after x1^8·x0^2 + x2·x0^2, of signature e1, was
/// reduced and inserted. Its leading term has no reducer, so a reduction term by
/// term asks for nothing more.
fn found_after(asked: &[Pairs<'_>]) -> EntryNumber {
    let mut index = sixty_six();
    let leading = [(1, 8), (0, 2)];
    let mut reducers = index.reducers(sign(1, ONE));
    reducers.ask(asked).unwrap();
    assert_eq!(reducers.find_a_reducer(&leading), Ok(None));
    index.insert(sign(1, ONE), &leading).unwrap();
    let mut reducers = index.reducers(sign(2, ONE));
    let found = reducers.find_a_reducer(&[(2, 1), (1, 1), (0, 2)]).unwrap();
    assert_eq!(found.unwrap().kind, ReducerKind::Regular);
    found.unwrap().entry
}

/// The smallest example of docs/DIFFERENCES.md. Both answers are right.
#[test]
fn more_terms_can_lead_to_another_reducer_after_an_insert() {
    let (leading, lower): (Pairs, Pairs) = (&[(1, 8), (0, 2)], &[(2, 1), (0, 2)]);
    assert_eq!(found_after(&[leading]).get(), 1);
    assert_eq!(found_after(&[leading, lower]).get(), 2);
    assert_eq!(found_after(&[lower]).get(), 2);
}

#[test]
fn a_refused_term_spoils_no_other() {
    let mut index = index_of(&elements(100, 7));
    let before = index.image().to_vec();
    let mut reducers = index.reducers(sign(2, ONE));
    let terms: [Pairs; 4] = [&[(0, 3)], &[(3, 1)], &[(0, 0)], &[(5000, 1)]];
    reducers.ask(terms).unwrap();
    assert!(reducers.find_a_reducer(terms[0]).is_ok());
    for bad in &terms[1..] {
        assert_eq!(reducers.find_a_reducer(*bad), Err(Refusal::NotCanonical));
    }
    assert_eq!(reducers.lists(), 1);

    // No signatures: an index that no word holds, and no monomial.
    let bad: [(u32, Pairs); 2] = [(1 << 28, ONE), (2, &[(0, -1)])];
    for (of, monomial) in bad {
        let mut reducers = index.reducers(sign(of, monomial));
        let refused = reducers.find_a_reducer(&[(0, 3)]);
        assert_eq!(refused, Err(Refusal::NotCanonical));
    }
    // Its only search split the one leaf, of 100.
    assert_eq!(index.image().len(), before.len());
    assert_ne!(index.image(), before);
}

/// A buffer that loses a bit behind the back of its index, at its third use alone.
struct Damaged {
    bytes: Vec<u8>,
    uses: usize,
}

impl AsRef<[u8]> for Damaged {
    fn as_ref(&self) -> &[u8] {
        &self.bytes
    }
}

impl AsMut<[u8]> for Damaged {
    fn as_mut(&mut self) -> &mut [u8] {
        self.uses += 1;
        if matches!(self.uses, 3 | 4) {
            self.bytes[0] ^= 1;
        }
        &mut self.bytes
    }
}

#[test]
fn a_list_that_is_refused_leaves_nothing_known() {
    let config = Config::new(1, 2).unwrap();
    let bytes = vec![0; RatioMonomialIndex::length(&config)];
    let mut index = RatioMonomialIndex::open_in(&config, Damaged { bytes, uses: 0 }).unwrap();
    index.insert(sign(0, ONE), &[(0, 1)]).unwrap();
    let mut reducers = index.reducers(sign(1, ONE));
    let terms = [[(0, 1)], [(0, 2)]];
    assert_eq!(reducers.ask(terms), Err(Refusal::Unsound));
    assert_eq!((reducers.lists(), reducers.terms()), (1, 0));
    let found = reducers.find_a_reducer(&terms[1]).unwrap();
    assert_eq!(found.unwrap().entry.get(), 0);
    assert_eq!((reducers.lists(), reducers.terms()), (2, 1));
}
