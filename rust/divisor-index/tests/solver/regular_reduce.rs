//! The original's `regular_reduce` (NOTICE has its licence). What finds the
//! reducers is a parameter, and gets the terms that are left too.

use std::{cell::RefCell, collections::BTreeMap, rc::Rc};

use super::{
    sign_to_monomial_ratio, Field, Id, KnownBasis, MaskedMonomialRef, MaskedSignature, Monomial,
    Polynomial, Ratio, SignPoly, SignedExponent, Term,
};

/// The 3 possible results of a regular reduction.
pub enum RegularReductionResult<I: Id, C: Field, P: SignedExponent> {
    /// Polynomial was singular top reducible
    Singular,
    /// Polynomial was reduced to zero.
    Zero(MaskedSignature<I, P>),
    /// Polynomial was reduced to some non-zero constant.
    NonZeroConstant(Polynomial<I, C, P>),
    /// Polynomial was reduced to some non singular top reducible polynomial.
    Reduced(SignPoly<I, C, P>),
}

/// Regular reduction, as defined in the paper.
///
/// This is analogous to calculate the remainder on a multivariate polynomial
/// division, but with extra restrictions on what polynomials can be the divisor
/// according to their signature.
#[allow(clippy::redundant_pattern_matching, clippy::len_zero)] // The original's text.
pub fn regular_reduce<I: Id, C: Field, P: SignedExponent>(
    idx: u32,
    m_sign: MaskedSignature<I, P>,
    reduced_poly: Polynomial<I, C, P>,
    basis: &KnownBasis<I, C, P>,
    mut find_a_reducer: impl FnMut(
        &Ratio<I, P>,
        MaskedMonomialRef<I, P>,
        &BTreeMap<Monomial<I, P>, C>,
    ) -> Option<Rc<RefCell<SignPoly<I, C, P>>>>,
) -> RegularReductionResult<I, C, P> {
    // The paper suggests splitting the reduced polynomial into a hash map of
    // monomial -> coefficient, so that we can efficiently sum the new terms,
    // and a priority queue, so that we know what is the next monomial to be
    // reduced. We can do both with a single BTreeMap, which is ordered and has
    // fast map access. I have tested both solutions, and in bigger problems
    // BTreeMap seems a little better.

    // The tree with the terms to be reduced.
    let mut to_reduce: BTreeMap<Monomial<I, P>, C> = reduced_poly
        .terms
        .into_iter()
        // Since this is already reverse sorted, rev() is a little faster, as we
        // insert the elements in increasing order.
        .rev()
        .map(|term| (term.monomial, term.coefficient))
        .collect();

    // Reduce one term at a time.
    let mut reduced_terms = Vec::new();
    let mut lm_properties = None;

    while let Some((m, c)) = to_reduce.pop_last() {
        // Reassemble the term
        let term = Term {
            coefficient: c,
            monomial: m,
        };

        // Early stop reduction if we already have a leading term (or if such
        // term is constant).
        if !reduced_terms.is_empty() || term.monomial.is_one() {
            reduced_terms.push(term);
            continue;
        }

        // Calculate the divmask for the term to be reduced:
        let divmask = basis.div_map.map(&term.monomial);

        // Calculate signature to monomial ratio, to search for a reducer,
        // and possibly store it as the ratio for the leading term.
        let sign_to_term_ratio = sign_to_monomial_ratio(&m_sign.signature, &term.monomial);

        if let Some(reducer) = find_a_reducer(
            &sign_to_term_ratio,
            MaskedMonomialRef(&divmask, &term.monomial),
            &to_reduce,
        ) {
            let reducer = reducer.borrow();

            // The reduction is said singular if we are reducing the leading
            // term and the factor*reducer have the same signature as the reduced.
            // This translates to equal signature/monomial ratio. In this case
            // we can stop.
            if reduced_terms.is_empty() && reducer.sign_to_lm_ratio == sign_to_term_ratio {
                return RegularReductionResult::Singular;
            }

            let mut iter = reducer.polynomial.terms.iter();
            let leading_term = iter.next().unwrap();

            // Calculate the multiplier monomial that will nullify the term.
            // We can unwrap() because we trust "find_a_regular_reducer" to
            // have returned a valid reducer.
            let monomial = term
                .monomial
                .whole_division(&leading_term.monomial)
                .unwrap();

            // Calculate the multiplier's coefficient using the reducer leading term:
            let coefficient = term
                .coefficient
                .elimination_factor(&reducer.inv_leading_coeff);

            let factor = Term {
                coefficient,
                monomial,
            };

            // Subtract every element of the reducer from the rest of the
            // polynomial.
            for term in iter {
                use std::collections::btree_map::Entry;

                let reducer_term = factor.clone() * term.clone();

                match to_reduce.entry(reducer_term.monomial) {
                    Entry::Vacant(entry) => {
                        // There was no such monomial, just insert:
                        entry.insert(reducer_term.coefficient);
                    }
                    Entry::Occupied(mut entry) => {
                        // Sum the coefficients, and remove if result is zero.
                        *entry.get_mut() += reducer_term.coefficient;
                        if entry.get().is_zero() {
                            entry.remove_entry();
                        }
                    }
                }
            }

            // Don't insert any new term in the final polynomial, as the
            // term has been eliminated.
            continue;
        }
        // No reducer was found.

        // The term could not be reduced. Store the ratio if this is the
        // leading term:
        if let None = lm_properties {
            assert!(reduced_terms.len() == 0);
            lm_properties = Some((sign_to_term_ratio, divmask));
        }

        // And insert it into the output. These terms are already in
        // decreasing order.
        reduced_terms.push(term)
    }

    let polynomial = Polynomial {
        terms: reduced_terms,
    };

    match lm_properties {
        Some((sign_to_lm_ratio, lm_divmask)) => RegularReductionResult::Reduced(SignPoly {
            inv_leading_coeff: polynomial.terms[0].coefficient.clone().inv(),
            masked_signature: m_sign,
            polynomial,
            lm_divmask,
            idx,
            sign_to_lm_ratio,
        }),
        None => {
            // The only way for lm_properties to be None is when
            // reduced_terms is empty or constant.
            match polynomial.terms.len() {
                0 => RegularReductionResult::Zero(m_sign),
                1 => {
                    assert!(polynomial.is_constant());
                    RegularReductionResult::NonZeroConstant(polynomial)
                }
                _ => panic!("This should never happen!"),
            }
        }
    }
}
