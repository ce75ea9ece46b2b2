//! The work of the original's `Monomial`, on words.

use std::cmp::Ordering;

use bytemuck::cast_slice;

use crate::{
    answer::{Word, Words},
    doors, Refusal,
};

/// The greatest common divisor of a and b.
pub fn gcd(variables: u32, a: &[u32], b: &[u32]) -> Result<Vec<u32>, Refusal> {
    let made = Words::of(|out| {
        doors::divisor_index_monomial_gcd(variables, cast_slice(a), cast_slice(b), out)
    })?;
    Ok(made.words())
}

/// The product of a and b.
pub fn mul(variables: u32, a: &[u32], b: &[u32]) -> Result<Vec<u32>, Refusal> {
    let made = Words::of(|out| {
        doors::divisor_index_monomial_mul(variables, cast_slice(a), cast_slice(b), out)
    })?;
    Ok(made.words())
}

/// a / b, or none where b does not divide a.
pub fn whole_division(variables: u32, a: &[u32], b: &[u32]) -> Result<Option<Vec<u32>>, Refusal> {
    let made = Words::of(|out| {
        doors::divisor_index_monomial_whole_division(variables, cast_slice(a), cast_slice(b), out)
    })?;
    Ok(made.quotient())
}

/// The ratio a / b.
pub fn fraction_division(variables: u32, a: &[u32], b: &[u32]) -> Result<Vec<u32>, Refusal> {
    let made = Words::of(|out| {
        doors::divisor_index_monomial_fraction_division(
            variables,
            cast_slice(a),
            cast_slice(b),
            out,
        )
    })?;
    Ok(made.words())
}

/// Whether a divides b.
pub fn divides(variables: u32, a: &[u32], b: &[u32]) -> Result<bool, Refusal> {
    let made = Word::of(|out| {
        doors::divisor_index_monomial_divides(variables, cast_slice(a), cast_slice(b), out)
    })?;
    Ok(made.yes())
}

/// Whether a and b are the same.
pub fn eq(variables: u32, a: &[u32], b: &[u32]) -> Result<bool, Refusal> {
    let made = Word::of(|out| {
        doors::divisor_index_monomial_eq(variables, cast_slice(a), cast_slice(b), out)
    })?;
    Ok(made.yes())
}

/// How a and b compare in the graded reverse lexicographic order.
pub fn ord(variables: u32, a: &[u32], b: &[u32]) -> Result<Ordering, Refusal> {
    let made = Word::of(|out| {
        doors::divisor_index_monomial_cmp(variables, cast_slice(a), cast_slice(b), out)
    })?;
    Ok(made.ordering())
}
