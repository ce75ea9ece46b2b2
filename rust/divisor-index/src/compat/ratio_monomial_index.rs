use std::{
    cell::{RefCell, RefMut},
    rc::Rc,
};

use super::{doubled, served, Element, HasRatio, HasSignature, Maxima, Reducers};
use crate::{EntryNumber, Product, RatioBatch, Refusal};

/// The original's `RatioMonomialIndex`, over its `SignPoly` or any other
/// [`Element`].
#[derive(Debug)]
pub struct RatioMonomialIndex<T> {
    index: RefCell<crate::RatioMonomialIndex>,
    /// By number.
    elems: Vec<Rc<RefCell<T>>>,
}

impl<T: Element> RatioMonomialIndex<T> {
    /// An index of these elements. The map of masks is not used.
    ///
    /// # Panics
    ///
    /// Where the port refuses: no 1 to 64 variables, more than 4,096 elements, or
    /// one without canonical monomials.
    pub fn new<D>(num_variables: usize, _div_map: D, elems: &[Rc<RefCell<T>>]) -> Self {
        let (mut maxima, mut batch) = (Maxima::new(num_variables), RatioBatch::new());
        let mut tickets = Vec::with_capacity(elems.len());
        for elem in elems {
            let elem = elem.borrow();
            maxima.raise(elem.signature().monomial);
            maxima.raise(elem.leading_monomial());
            tickets.push(batch.insert(elem.signature(), elem.leading_monomial()));
        }
        let mut index = crate::RatioMonomialIndex::open(&maxima.config(elems.len()));
        let answers = served(index.run(&batch));
        for ticket in tickets {
            served(answers.get(ticket));
        }
        RatioMonomialIndex {
            index: RefCell::new(index),
            elems: elems.to_vec(),
        }
    }

    /// Stores an element.
    ///
    /// # Panics
    ///
    /// Where the port refuses: the 4,097th, or one without canonical monomials.
    pub fn insert(&mut self, elem: Rc<RefCell<T>>) {
        self.insert_value(&elem.borrow());
        self.elems.push(elem);
    }

    fn insert_value(&mut self, elem: &T) {
        let index = self.index.get_mut();
        let mut inserted = index.insert(elem.signature(), elem.leading_monomial());
        if inserted == Err(Refusal::Full) {
            *index = served(index.reopened(&doubled(index.config())));
            inserted = index.insert(elem.signature(), elem.leading_monomial());
        }
        served(inserted);
    }

    /// An element whose leading monomial divides, with the largest ratio above
    /// this one.
    ///
    /// # Panics
    ///
    /// Where the port refuses: no ratio, or no monomial.
    pub fn find_high_base_divisor(
        &self,
        s_lm_ratio: &impl HasRatio,
        lm: impl Product,
    ) -> Option<Rc<RefCell<T>>> {
        let mut index = self.index();
        let found = index.find_high_base_divisor(s_lm_ratio.ratio(), &lm);
        self.elem(served(found))
    }

    /// An element of the same index whose signature divides, with the largest
    /// ratio.
    ///
    /// # Panics
    ///
    /// Where the port refuses: no signature.
    pub fn find_low_base_divisor(&self, sign_poly: &impl HasSignature) -> Option<Rc<RefCell<T>>> {
        let mut index = self.index();
        let found = index.find_low_base_divisor(sign_poly.signature());
        self.elem(served(found))
    }

    /// A regular reducer, else a singular one. Which of them it is shows in its
    /// ratio, as in the original.
    ///
    /// # Panics
    ///
    /// Where the port refuses: no ratio, or no monomial.
    pub fn find_a_reducer(
        &self,
        s_lm_ratio: &impl HasRatio,
        lm: impl Product,
    ) -> Option<Rc<RefCell<T>>> {
        let mut index = self.index();
        let found = index.find_a_reducer(s_lm_ratio.ratio(), &lm);
        self.elem(served(found).map(|reducer| reducer.entry))
    }

    /// The reducers of one regular reduction, that of a polynomial with this
    /// signature.
    pub fn reducers(&self, sign: &impl HasSignature) -> Reducers<'_, T> {
        Reducers::new(self, sign)
    }

    /// Whether an element of the same index, whose signature divides, has a ratio
    /// above signature / leading monomial.
    ///
    /// # Panics
    ///
    /// Where the port refuses: no signature, or no monomial.
    pub fn test_singular_criterion(&self, sign: &impl HasSignature, lm: &impl Product) -> bool {
        let mut index = self.index();
        served(index.test_singular_criterion(sign.signature(), lm))
    }

    /// The index itself, for a search.
    pub(super) fn index(&self) -> RefMut<'_, crate::RatioMonomialIndex> {
        self.index.borrow_mut()
    }

    pub(super) fn elem(&self, found: Option<EntryNumber>) -> Option<Rc<RefCell<T>>> {
        found.map(|entry| Rc::clone(&self.elems[entry.index()]))
    }
}
