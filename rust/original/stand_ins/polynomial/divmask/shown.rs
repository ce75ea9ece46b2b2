//! Ours, not the original's: masks and maxima as numbers, for the oracle.

use bitvec::macros::internal::funty::Unsigned;

use super::{DivMask, MaximumExponentsTracker};
use crate::polynomial::Exponent;

impl<T: Unsigned> DivMask<T> {
    pub fn bits(&self) -> &T {
        &self.0
    }
}

impl<P: Exponent> MaximumExponentsTracker<P> {
    pub fn max_exponents(&self) -> &[P] {
        &self.max_exponents
    }
}
