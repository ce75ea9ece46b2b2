//! Ours, not the original's: the tree of a ratio index, for the oracle.

use super::{Field, KeyElem, Ordering, RatioMonomialIndex};
use crate::{
    kd_tree::shown::Shown,
    polynomial::signature_basis::oracle::{shown::Words, Id, Power},
};

impl<O: Ordering, F: Field> RatioMonomialIndex<O, Id, F, Power> {
    /// The nodes in preorder, as the words of `oracle::shown`.
    pub(in crate::polynomial::signature_basis) fn shown(&mut self, words: &mut Words) {
        self.0.show(&mut |gcd, node| {
            words.masked(gcd);
            match node {
                Shown::Branch(KeyElem::S2LMRatio(key)) => words.branch(0, key.borrow().idx),
                Shown::Branch(KeyElem::MonomialVar(key)) => {
                    words.branch(u32::from(key.id) + 1, key.power as u32);
                }
                Shown::Leaf(entries) => {
                    words.leaf(entries.len());
                    for entry in entries {
                        words.sign_poly(&entry.0.borrow());
                    }
                }
            }
        });
    }
}
