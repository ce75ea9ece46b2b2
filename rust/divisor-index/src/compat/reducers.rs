use std::{cell::RefCell, rc::Rc};

use super::{served, Element, HasSignature, RatioMonomialIndex};
use crate::{index::Known, Product, Reducer, Refusal};

/// The [reducers](crate::Reducers) of one regular reduction, as elements.
///
/// A refusal is a panic, once the term's own answer is wanted.
#[derive(Debug)]
pub struct Reducers<'a, T> {
    index: &'a RatioMonomialIndex<T>,
    known: Known,
}

impl<'a, T: Element> Reducers<'a, T> {
    pub(super) fn new(index: &'a RatioMonomialIndex<T>, sign: &impl HasSignature) -> Self {
        let known = Known::new(&index.index(), sign.signature());
        Reducers { index, known }
    }

    /// Asks for the terms that are not known, in one list; for none if all are.
    pub fn ask<M: Product>(&mut self, terms: impl IntoIterator<Item = M>) {
        served(self.known.ask(&mut self.index.index(), terms))
    }

    /// A regular reducer, else a singular one. Which of them it is shows in its
    /// ratio, as in the original. A term that is not known is asked for by itself.
    ///
    /// # Panics
    ///
    /// Where the port refuses: no signature, or no monomial.
    pub fn find_a_reducer(&mut self, term: impl Product) -> Option<Rc<RefCell<T>>> {
        let index = &mut self.index.index();
        let found = self.known.find(index, &term);
        self.elem(found)
    }

    /// The same, but a term that is not known is asked for in one list with those
    /// of the others that are not known either. If it is known, the others are not
    /// looked at.
    ///
    /// # Panics
    ///
    /// Where the port refuses: no signature, or no monomial.
    pub fn find_a_reducer_with<M: Product>(
        &mut self,
        term: impl Product,
        others: impl IntoIterator<Item = M>,
    ) -> Option<Rc<RefCell<T>>> {
        let index = &mut self.index.index();
        let found = self.known.find_with(index, &term, others);
        self.elem(found)
    }

    /// The number of lists that were lent.
    pub fn lists(&self) -> usize {
        self.known.lists
    }

    fn elem(&self, found: Result<Option<Reducer>, Refusal>) -> Option<Rc<RefCell<T>>> {
        let reducer = served(found);
        self.index.elem(reducer.map(|reducer| reducer.entry))
    }
}
