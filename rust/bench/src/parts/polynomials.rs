//! Polynomials over a small field, with the original's monomials, and their
//! regular reduction.

use std::{
    borrow,
    cell::RefCell,
    cmp::Ordering,
    collections::{btree_map::Entry, BTreeMap},
    mem,
    rc::Rc,
};

use divisor_index::{
    compat::{self, HasSignature},
    Product, Signature,
};
use harness::{model::powers::Powers, rng::Rng};
use original::oracle;

use crate::sides::{drawing::draw_powers, monomial, Monomial, Sample};

/// A prime: the field's elements are the numbers below it.
const FIELD: u64 = 32_003;

/// The most terms of an element behind its leading one.
const TAIL: usize = 8;

/// A monomial of the original as it is lent to the port.
pub struct Lent<M>(pub M);

impl<M: borrow::Borrow<Monomial>> Product for Lent<M> {
    fn variables(&self) -> impl Iterator<Item = (u16, i32)> {
        let variables = oracle::variables(self.0.borrow());
        variables.map(|(id, power)| (*id, *power))
    }
}

/// By falling monomial when the last is taken first.
pub type Terms = BTreeMap<Monomial, u64>;

/// Elements are shared as in the original.
pub type Basis = [Rc<RefCell<Element>>];

/// An element of the basis, its leading coefficient 1.
pub struct Element {
    pub number: usize,
    pub index: u32,
    pub sign: Lent<Monomial>,
    pub lm: Lent<Monomial>,
    /// Of signature and leading monomial.
    pub ratio: Monomial,
    tail: Vec<(Monomial, u64)>,
}

impl HasSignature for Element {
    type Monomial = Lent<Monomial>;

    fn signature(&self) -> Signature<'_, Lent<Monomial>> {
        Signature::new(self.index, &self.sign)
    }
}

impl compat::Element for Element {
    fn leading_monomial(&self) -> &Lent<Monomial> {
        &self.lm
    }
}

/// A polynomial to be reduced.
pub struct Polynomial {
    pub index: u32,
    sign: Lent<Monomial>,
    pub terms: Terms,
}

impl Polynomial {
    /// Of its signature and a term.
    pub fn ratio(&self, term: &Monomial) -> Monomial {
        self.sign.0.fraction_division(term)
    }
}

impl HasSignature for Polynomial {
    type Monomial = Lent<Monomial>;

    fn signature(&self) -> Signature<'_, Lent<Monomial>> {
        Signature::new(self.index, &self.sign)
    }
}

/// Finds regular reducers in a basis.
pub trait Search {
    /// The number of one for this term. The others are still to be reduced.
    fn find(&mut self, term: &Monomial, others: &Terms) -> Option<usize>;
}

/// Reduces terms, the largest first, until none has a regular reducer.
pub fn reduce(basis: &Basis, mut terms: Terms, search: &mut impl Search) -> Terms {
    let mut reduced = Terms::new();
    while let Some((term, coefficient)) = terms.pop_last() {
        match search.find(&term, &terms) {
            Some(number) => subtract(&mut terms, &basis[number].borrow(), term, coefficient),
            None => {
                reduced.insert(term, coefficient);
            }
        }
    }
    reduced
}

/// Takes the multiple of an element away that has this leading term.
fn subtract(terms: &mut Terms, element: &Element, term: Monomial, coefficient: u64) {
    let factor = term.whole_division(&element.lm.0);
    let factor = factor.expect("a reducer divides");
    for (monomial, of_tail) in &element.tail {
        let taken = FIELD - coefficient * of_tail % FIELD;
        add(terms, factor.clone() * monomial.clone(), taken);
    }
}

fn add(terms: &mut Terms, monomial: Monomial, coefficient: u64) {
    match terms.entry(monomial) {
        Entry::Vacant(entry) => {
            entry.insert(coefficient);
        }
        Entry::Occupied(mut entry) => match (entry.get() + coefficient) % FIELD {
            0 => drop(entry.remove()),
            sum => *entry.get_mut() = sum,
        },
    }
}

/// The entries of a sample with tails.
pub fn draw_basis(sample: &Sample, rng: &mut Rng) -> Vec<Rc<RefCell<Element>>> {
    let mut by_total: Vec<_> = sample.entries.iter().map(|entry| &entry.lm).collect();
    by_total.sort_by_key(|lm| total(lm));
    let entries = sample.entries.iter().enumerate();
    let elements = entries.map(|(number, entry)| Element {
        number,
        index: entry.index,
        sign: Lent(monomial(&entry.sign)),
        lm: Lent(monomial(&entry.lm)),
        ratio: monomial(&entry.ratio().monomial),
        tail: draw_tail(&entry.lm, &by_total, rng),
    });
    elements
        .map(|element| Rc::new(RefCell::new(element)))
        .collect()
}

/// Terms of small total, and one that is a multiple of another leading monomial.
fn draw_tail(lm: &Powers, by_total: &[&Powers], rng: &mut Rng) -> Vec<(Monomial, u64)> {
    let half = total(lm) / 2;
    let small = by_total.partition_point(|other| total(other) <= half);
    let mut tail: Vec<_> = (1..TAIL).map(|_| draw_small(lm, half / 2, rng)).collect();
    if small > 0 {
        let divisor = *rng.choose(&by_total[..small]);
        tail.push(divisor.times(&draw_small(lm, half / 2, rng)));
    }
    let coefficient = |rng: &mut Rng| 1 + rng.below(FIELD as usize - 1) as u64;
    let with_coefficient = |powers| (monomial(&powers), coefficient(rng));
    tail.into_iter().map(with_coefficient).collect()
}

/// In the variables of the other, of at most this total.
fn draw_small(lm: &Powers, most: i32, rng: &mut Rng) -> Powers {
    shrunk(&draw_powers(lm.0.len(), rng), most)
}

/// Each power made smaller in proportion, to at most this total.
fn shrunk(powers: &Powers, most: i32) -> Powers {
    let of = total(powers).max(most);
    Powers(powers.0.iter().map(|power| power * most / of).collect())
}

fn total(powers: &Powers) -> i32 {
    powers.0.iter().sum()
}

/// The sum of so many S-polynomials, with the largest of their signatures.
pub fn draw_polynomial(basis: &Basis, parts: usize, rng: &mut Rng) -> Polynomial {
    let drawn = (0..parts).map(|_| draw_s_polynomial(basis, rng));
    let sum = drawn.reduce(|mut sum, mut other| {
        if (sum.index, &sum.sign.0) < (other.index, &other.sign.0) {
            mem::swap(&mut sum, &mut other);
        }
        for (monomial, coefficient) in other.terms {
            add(&mut sum.terms, monomial, coefficient);
        }
        sum
    });
    sum.expect("one part at least")
}

/// Of two elements of different ratios.
fn draw_s_polynomial(basis: &Basis, rng: &mut Rng) -> Polynomial {
    loop {
        let (a, b) = (rng.choose(basis).borrow(), rng.choose(basis).borrow());
        match (a.index, &a.ratio).cmp(&(b.index, &b.ratio)) {
            Ordering::Equal => continue,
            Ordering::Less => return s_polynomial(&b, &a),
            Ordering::Greater => return s_polynomial(&a, &b),
        }
    }
}

/// The signature is that of the element with the larger ratio, which is the first.
fn s_polynomial(a: &Element, b: &Element) -> Polynomial {
    let gcd = a.lm.0.clone().gcd(&b.lm.0);
    let cofactor = |lm: &Monomial| lm.clone().whole_division(&gcd).expect("a divisor");
    let (of_a, of_b) = (cofactor(&b.lm.0), cofactor(&a.lm.0));
    let of_first = a.tail.iter().map(|(m, c)| (of_a.clone() * m.clone(), *c));
    let of_second = b
        .tail
        .iter()
        .map(|(m, c)| (of_b.clone() * m.clone(), FIELD - c));
    let mut terms = Terms::new();
    for (monomial, coefficient) in of_first.chain(of_second) {
        add(&mut terms, monomial, coefficient);
    }
    Polynomial {
        index: a.index,
        sign: Lent(of_a.clone() * a.sign.0.clone()),
        terms,
    }
}
