//! Ours, not the original's: the tree of a monomial index, for the oracle.

use super::{MonomialIndex, Ordering};
use crate::{
    kd_tree::shown::Shown,
    polynomial::signature_basis::oracle::{shown::Words, Id, Power},
};

impl<O: Ordering> MonomialIndex<O, Id, Power> {
    /// The nodes in preorder, as the words of `oracle::shown`.
    pub(in crate::polynomial::signature_basis) fn shown(&mut self, words: &mut Words) {
        self.0.show(&mut |gcd, node| {
            words.masked(gcd);
            match node {
                Shown::Branch(key) => words.branch(key.id.into(), key.power as u32),
                Shown::Leaf(entries) => {
                    words.leaf(entries.len());
                    for entry in entries {
                        words.masked(entry);
                    }
                }
            }
        });
    }
}
