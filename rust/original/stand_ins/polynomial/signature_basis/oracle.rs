//! Ours, not the original's: access to the index for the harness.
//!
//! It calls the original's code and decides nothing itself. What follows the
//! solver is said where it stands. Ids and powers are fixed types, the order is
//! the caller's.

pub mod shown;

use std::{cell::RefCell, rc::Rc};

use num_traits::{ops::inv::Inv, One};

use self::shown::Words;
use super::{
    indices::{
        monomial_index::MonomialIndex, ratio_monomial_index::RatioMonomialIndex, MaskedMonomial,
    },
    sign_to_monomial_ratio, CmpMap, DivMap, MaskedMonomialRef, MaskedSignature, Ratio, SignPoly,
    Signature,
};
use crate::{
    field::fixed_size::F2,
    polynomial::{
        self,
        divmask::{DivMaskTestResult, MaximumExponentsTracker},
        monomial_ordering::Ordering,
        Exponent, Polynomial, Term, VariablePower,
    },
};

pub type Id = u16;
pub type Power = i32;
pub type Monomial<O> = polynomial::Monomial<O, Id, Power>;

type Poly<O> = SignPoly<O, Id, F2, Power>;

/// A variable's id and its power.
pub type Var = (Id, Power);

/// The monomial, or ratio, with these variables.
pub fn monomial<O: Ordering, P: Exponent + From<Power>>(
    vars: &[Var],
) -> polynomial::Monomial<O, Id, P> {
    let vars = vars
        .iter()
        .map(|&(id, power)| VariablePower::new(id, P::from(power)))
        .collect();
    Term::new_multi_vars(1i32, vars).monomial
}

/// The variables of a monomial in its own order, which is that of falling ids.
/// An `Ordering` outside of this crate has no other way to the powers.
pub fn variables<O, I, P>(
    monomial: &polynomial::Monomial<O, I, P>,
) -> impl DoubleEndedIterator<Item = (&I, &P)> {
    monomial.product.iter().map(|var| (&var.id, &var.power))
}

fn vars<O>(monomial: &Monomial<O>) -> Vec<Var> {
    variables(monomial)
        .map(|(id, power)| (*id, *power))
        .collect()
}

/// A `MaximumExponentsTracker` brought to given maxima.
fn tracker<O: Ordering>(maxima: &[Power]) -> MaximumExponentsTracker<Power> {
    let mut tracker = MaximumExponentsTracker::new(maxima.len());
    for (id, &maximum) in maxima.iter().enumerate() {
        tracker.update(&monomial::<O, Power>(&[(id as Id, maximum)]));
    }
    tracker
}

/// The maxima as the solver tracks them.
pub struct Maxima {
    tracker: MaximumExponentsTracker<Power>,
}

impl Maxima {
    pub fn new<O: Ordering>(maxima: &[Power]) -> Self {
        Self {
            tracker: tracker::<O>(maxima),
        }
    }

    pub fn update<O: Ordering>(&mut self, vars: &[Var]) {
        self.tracker.update(&monomial::<O, Power>(vars));
    }

    pub fn has_grown_beyond_percentage(&self, percentage: u8) -> bool {
        self.tracker.has_grown_beyond_percentage(percentage)
    }

    pub fn get(&self) -> &[Power] {
        self.tracker.max_exponents()
    }
}

/// A `DivMap` made from given maxima.
pub struct Map {
    div_map: Rc<DivMap<Power>>,
}

impl Map {
    pub fn new<O: Ordering>(maxima: &[Power]) -> Self {
        Self {
            div_map: Rc::new(DivMap::new(&tracker::<O>(maxima))),
        }
    }

    pub fn mask<O: Ordering>(&self, monomial: &Monomial<O>) -> u32 {
        *self.div_map.map(monomial).bits()
    }

    /// Whether the mask test leaves open that a divides b.
    pub fn is_unsure<O: Ordering>(&self, a: &Monomial<O>, b: &Monomial<O>) -> bool {
        let result = self.div_map.map(a).divides(&self.div_map.map(b));
        matches!(result, DivMaskTestResult::Unsure)
    }
}

/// The label map alone.
pub struct Labels<O: Ordering> {
    ratio_map: CmpMap<O, Id, Power>,
}

impl<O: Ordering> Labels<O> {
    pub fn new() -> Self {
        Self {
            ratio_map: CmpMap::new(),
        }
    }

    /// The label of a value, or none if no label is left for it.
    pub fn get_comparer(&mut self, idx: u32, monomial: Monomial<O>) -> Option<u32> {
        Ratio::new(Some(&mut self.ratio_map), Signature { idx, monomial })?.get_comparer()
    }

    pub fn rebuild(&mut self) {
        self.ratio_map.rebuild();
    }
}

/// The solver's set of syzygies: a `MonomialIndex` and what it is kept with.
pub struct Syzygies<O: Ordering> {
    index: MonomialIndex<O, Id, Power>,
    div_map: Rc<DivMap<Power>>,
    max_exp: Maxima,
}

impl<O: Ordering> Syzygies<O> {
    pub fn new(maxima: &[Power]) -> Self {
        let div_map = Map::new::<O>(maxima).div_map;
        Self {
            index: MonomialIndex::new(maxima.len(), div_map.clone(), vec![]),
            div_map,
            max_exp: Maxima::new::<O>(maxima),
        }
    }

    /// Follows `BasisCalculator::add_syzygy`.
    pub fn insert(&mut self, monomial: Monomial<O>) {
        self.max_exp.tracker.update(&monomial);
        self.insert_untracked(monomial);
    }

    /// The same without the maxima, for benchmarks.
    pub fn insert_untracked(&mut self, monomial: Monomial<O>) {
        self.index.insert(MaskedMonomial {
            divmask: self.div_map.map(&monomial),
            monomial,
        });
    }

    pub fn contains_divisor(&self, monomial: &Monomial<O>) -> bool {
        let divmask = self.div_map.map(monomial);
        self.index
            .contains_divisor(MaskedMonomialRef(&divmask, monomial))
    }

    pub fn maxima(&self) -> &Maxima {
        &self.max_exp
    }

    /// Writes the tree as the words of [`shown`].
    pub fn show(&mut self, words: &mut Vec<u32>) {
        self.index.shown(&mut Words(words));
    }

    /// The entries in the order of the tree.
    pub fn to_vec(self) -> Vec<Vec<Var>> {
        let entries = self.index.to_vec();
        entries.iter().map(|e| vars(&e.monomial)).collect()
    }
}

/// The solver's basis: a `RatioMonomialIndex` and what it is kept with.
pub struct Basis<O: Ordering> {
    index: RatioMonomialIndex<O, Id, F2, Power>,
    polys: Vec<Rc<RefCell<Poly<O>>>>,
    ratio_map: CmpMap<O, Id, Power>,
    div_map: Rc<DivMap<Power>>,
    max_exp: Maxima,
    rebuilds: usize,
}

impl<O: Ordering> Basis<O> {
    pub fn new(maxima: &[Power]) -> Self {
        let div_map = Map::new::<O>(maxima).div_map;
        Self {
            index: RatioMonomialIndex::new(maxima.len(), div_map.clone(), &[]),
            polys: vec![],
            ratio_map: CmpMap::new(),
            div_map,
            max_exp: Maxima::new::<O>(maxima),
            rebuilds: 0,
        }
    }

    /// Follows `BasisCalculator::insert_poly_with_spairs`.
    pub fn insert(&mut self, idx: u32, sign: Monomial<O>, lm: Monomial<O>) {
        let mut sign_poly = self.sign_poly(idx, sign, lm);
        self.label(&mut sign_poly);

        let max_exp = &mut self.max_exp.tracker;
        max_exp.update(&sign_poly.signature().monomial);
        for term in sign_poly.polynomial.terms.iter() {
            max_exp.update(&term.monomial);
        }

        let sign_poly = Rc::new(RefCell::new(sign_poly));
        self.index.insert(Rc::clone(&sign_poly));
        self.polys.push(sign_poly);
    }

    /// The same without the maxima, for benchmarks.
    pub fn insert_untracked(&mut self, idx: u32, sign: Monomial<O>, lm: Monomial<O>) {
        let mut sign_poly = self.sign_poly(idx, sign, lm);
        self.label(&mut sign_poly);
        let sign_poly = Rc::new(RefCell::new(sign_poly));
        self.index.insert(Rc::clone(&sign_poly));
        self.polys.push(sign_poly);
    }

    /// Gives a new polynomial its label, dealing all labels afresh if none is
    /// left for it.
    fn label(&mut self, sign_poly: &mut Poly<O>) {
        let ratio_map = &mut self.ratio_map;
        if sign_poly.sign_to_lm_ratio.update(ratio_map).is_ok() {
            return;
        }
        self.rebuilds += 1;
        ratio_map.rebuild();
        sign_poly.sign_to_lm_ratio.update(ratio_map).unwrap();
        for p in self.polys.iter() {
            let mut p = p.borrow_mut();
            p.sign_to_lm_ratio.update(ratio_map).unwrap();
        }
    }

    fn sign_poly(&self, idx: u32, monomial: Monomial<O>, lm: Monomial<O>) -> Poly<O> {
        let masked_signature = self.masked_signature(idx, monomial);
        let coefficient = F2::one();
        SignPoly {
            lm_divmask: self.div_map.map(&lm),
            inv_leading_coeff: coefficient.clone().inv(),
            idx: self.polys.len() as u32,
            sign_to_lm_ratio: sign_to_monomial_ratio(&masked_signature.signature, &lm),
            masked_signature,
            polynomial: Polynomial {
                terms: vec![Term {
                    coefficient,
                    monomial: lm,
                }],
            },
        }
    }

    fn masked_signature(&self, idx: u32, monomial: Monomial<O>) -> MaskedSignature<O, Id, Power> {
        MaskedSignature {
            divmask: self.div_map.map(&monomial),
            signature: Signature { idx, monomial },
        }
    }

    /// The entry's number, and whether the reducer is singular, told as
    /// `regular_reduce` tells it.
    pub fn find_a_reducer(
        &self,
        idx: u32,
        ratio: Monomial<O>,
        lm: &Monomial<O>,
    ) -> Option<(u32, bool)> {
        let ratio = query_ratio(idx, ratio);
        let divmask = self.div_map.map(lm);
        let reducer = self
            .index
            .find_a_reducer(&ratio, MaskedMonomialRef(&divmask, lm))?;
        let reducer = reducer.borrow();
        Some((reducer.idx, reducer.sign_to_lm_ratio == ratio))
    }

    /// Panics where a divisor that is visited has no ratio above the query's.
    pub fn find_high_base_divisor(
        &self,
        idx: u32,
        ratio: Monomial<O>,
        lm: &Monomial<O>,
    ) -> Option<u32> {
        let ratio = query_ratio(idx, ratio);
        let divmask = self.div_map.map(lm);
        let divisor = self
            .index
            .find_high_base_divisor(&ratio, MaskedMonomialRef(&divmask, lm))?;
        let divisor = divisor.borrow();
        Some(divisor.idx)
    }

    /// The search looks at the signature of its polynomial alone.
    pub fn find_low_base_divisor(&self, idx: u32, sign: Monomial<O>) -> Option<u32> {
        let sign_poly = self.sign_poly(idx, sign, Monomial::one());
        let divisor = self.index.find_low_base_divisor(&sign_poly)?;
        let divisor = divisor.borrow();
        Some(divisor.idx)
    }

    pub fn test_singular_criterion(&self, idx: u32, sign: Monomial<O>, lm: &Monomial<O>) -> bool {
        self.index
            .test_singular_criterion(&self.masked_signature(idx, sign), lm)
    }

    /// Writes the tree as the words of [`shown`].
    pub fn show(&mut self, words: &mut Vec<u32>) {
        self.index.shown(&mut Words(words));
    }

    /// The label of each entry.
    pub fn labels(&self) -> Vec<u32> {
        let label = |p: &Rc<RefCell<Poly<O>>>| p.borrow().sign_to_lm_ratio.get_comparer().unwrap();
        self.polys.iter().map(label).collect()
    }

    pub fn maxima(&self) -> &Maxima {
        &self.max_exp
    }

    /// How often labels were dealt afresh.
    pub fn rebuilds(&self) -> usize {
        self.rebuilds
    }
}

/// A ratio to ask with: it has no label, so it is compared by value.
fn query_ratio<O: Ordering>(idx: u32, monomial: Monomial<O>) -> Ratio<O, Id, Power> {
    Ratio::new(None, Signature { idx, monomial }).unwrap()
}
