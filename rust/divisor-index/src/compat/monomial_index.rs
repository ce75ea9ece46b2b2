use std::cell::RefCell;

use super::{doubled, served, Maxima};
use crate::{MonomialBatch, Product, Refusal};

/// The original's `MonomialIndex`, over its `MaskedMonomial` or any other
/// [`Product`].
#[derive(Debug)]
pub struct MonomialIndex<M> {
    index: RefCell<crate::MonomialIndex>,
    /// By number.
    elems: Vec<M>,
}

impl<M: Product> MonomialIndex<M> {
    /// An index of these monomials. The map of masks is not used.
    ///
    /// # Panics
    ///
    /// Where the port refuses: no 1 to 64 variables, more than 4,096 elements, or
    /// one that is no monomial.
    pub fn new<D>(num_variables: usize, _div_map: D, elems: Vec<M>) -> Self {
        let (mut maxima, mut batch) = (Maxima::new(num_variables), MonomialBatch::new());
        let mut tickets = Vec::with_capacity(elems.len());
        for elem in &elems {
            maxima.raise(elem);
            tickets.push(batch.insert(elem));
        }
        let mut index = crate::MonomialIndex::open(&maxima.config(elems.len()));
        let answers = served(index.run(&batch));
        for ticket in tickets {
            served(answers.get(ticket));
        }
        let index = RefCell::new(index);
        MonomialIndex { index, elems }
    }

    /// Stores a monomial.
    ///
    /// # Panics
    ///
    /// Where the port refuses: the 4,097th, or no monomial.
    pub fn insert(&mut self, elem: M) {
        let index = self.index.get_mut();
        let mut inserted = index.insert(&elem);
        if inserted == Err(Refusal::Full) {
            *index = served(index.reopened(&doubled(index.config())));
            inserted = index.insert(&elem);
        }
        served(inserted);
        self.elems.push(elem);
    }

    /// Whether some stored monomial divides this one.
    ///
    /// # Panics
    ///
    /// Where the port refuses: no monomial.
    pub fn contains_divisor(&self, monomial: impl Product) -> bool {
        served(self.index.borrow_mut().contains_divisor(&monomial))
    }

    /// The number of monomials.
    pub fn len(&self) -> usize {
        self.elems.len()
    }

    /// Whether it holds nothing.
    pub fn is_empty(&self) -> bool {
        self.elems.is_empty()
    }

    /// The monomials in the order of the tree, as the original gives them.
    #[allow(clippy::wrong_self_convention)] // The original's name.
    pub fn to_vec(self) -> Vec<M> {
        let mut elems: Vec<_> = self.elems.into_iter().map(Some).collect();
        let index = self.index.into_inner();
        let order = index.leaf_order();
        order.filter_map(|number| elems[number].take()).collect()
    }
}
