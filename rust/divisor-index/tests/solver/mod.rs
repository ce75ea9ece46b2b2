//! The solver's types, its calculator and its regular reduction, cut down: no
//! orders, comparers, maxima and S-pairs.

mod basis_calculator;
mod regular_reduce;
mod types;

pub use basis_calculator::{BasisCalculator, KnownBasis};
pub use regular_reduce::{regular_reduce, RegularReductionResult};
pub use types::*;

use divisor_index::compat;

pub type MonomialIndex<I, E> = compat::MonomialIndex<MaskedMonomial<I, E>>;
pub type RatioMonomialIndex<I, C, E> = compat::RatioMonomialIndex<SignPoly<I, C, E>>;
