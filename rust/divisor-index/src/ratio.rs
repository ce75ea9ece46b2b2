//! Ratios of monomials, on words.

use std::cmp::Ordering;

use bytemuck::cast_slice;

use crate::{answer::Word, doors, Refusal};

/// Whether a and b are the same.
pub fn eq(variables: u32, a: &[u32], b: &[u32]) -> Result<bool, Refusal> {
    let made = Word::of(|out| {
        doors::divisor_index_ratio_eq(variables, cast_slice(a), cast_slice(b), out)
    })?;
    Ok(made.yes())
}

/// How a and b compare in the graded reverse lexicographic order.
pub fn ord(variables: u32, a: &[u32], b: &[u32]) -> Result<Ordering, Refusal> {
    let made = Word::of(|out| {
        doors::divisor_index_ratio_cmp(variables, cast_slice(a), cast_slice(b), out)
    })?;
    Ok(made.ordering())
}
