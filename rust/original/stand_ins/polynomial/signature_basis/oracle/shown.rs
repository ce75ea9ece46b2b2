//! Ours: a tree as plain words, so that it can be compared.

use super::{
    super::{indices::MaskedMonomial, DivMask, SignPoly},
    variables, Id, Monomial, Ordering, Power,
};
use crate::field::Field;

/// Nodes in preorder, the less side before the other side; a tree without
/// entries has none. A node is its gcd, masked, then 1, dimension and key, or 0
/// and its entries behind their number. The key is a power, or in the dimension
/// of the ratio the number of an entry. An entry of a monomial index is its
/// monomial, masked; of a ratio index its number and the masks of lm and signature
/// monomial. A masked monomial is its mask, the number of its
/// variables, and for each id × 2^16 + power.
pub struct Words<'a>(pub(super) &'a mut Vec<u32>);

impl Words<'_> {
    pub(in crate::polynomial::signature_basis) fn masked<O: Ordering>(
        &mut self,
        monomial: &MaskedMonomial<O, Id, Power>,
    ) {
        self.0.push(bits(&monomial.divmask));
        self.monomial(&monomial.monomial);
    }

    fn monomial<O>(&mut self, monomial: &Monomial<O>) {
        let variables = variables(monomial);
        let words = variables.map(|(id, power)| u32::from(*id) << 16 | *power as u32);
        self.0.push(0);
        let count = self.0.len();
        self.0.extend(words);
        self.0[count - 1] = (self.0.len() - count) as u32;
    }

    pub(in crate::polynomial::signature_basis) fn branch(&mut self, dimension: u32, key: u32) {
        self.0.extend([1, dimension, key]);
    }

    pub(in crate::polynomial::signature_basis) fn leaf(&mut self, entries: usize) {
        self.0.extend([0, entries as u32]);
    }

    pub(in crate::polynomial::signature_basis) fn sign_poly<O: Ordering, F: Field>(
        &mut self,
        poly: &SignPoly<O, Id, F, Power>,
    ) {
        let masks = [&poly.lm_divmask, &poly.masked_signature.divmask].map(bits);
        self.0.extend([poly.idx, masks[0], masks[1]]);
    }
}

fn bits(mask: &DivMask) -> u32 {
    *mask.bits()
}
