//! Document 01's order of monomials, as an `Ordering` for the original.

use std::cmp::Ordering as CmpOrd;

use original::{
    oracle::variables,
    polynomial::{monomial_ordering::Ordering, Exponent, Id, Monomial},
};

/// Graded reverse lexicographic: larger total power is larger; at equal totals,
/// at the smallest id where powers differ, the smaller power is the larger
/// monomial. An absent variable has power 0, and powers may be negative.
#[derive(Debug, Clone, PartialEq, Eq, PartialOrd, Ord)]
pub struct Order;

impl Ordering for Order {
    fn ord<I: Id, P: Exponent>(a: &Monomial<Self, I, P>, b: &Monomial<Self, I, P>) -> CmpOrd {
        let by_total = total(a).cmp(&total(b));
        by_total.then_with(|| by_smallest_id(a, b))
    }

    fn cocoa_name() -> &'static str {
        "DegRevLex"
    }
}

fn total<I: Id, P: Exponent>(monomial: &Monomial<Order, I, P>) -> P {
    variables(monomial).fold(P::zero(), |mut total, (_, power)| {
        total += power;
        total
    })
}

fn by_smallest_id<I: Id, P: Exponent>(
    a: &Monomial<Order, I, P>,
    b: &Monomial<Order, I, P>,
) -> CmpOrd {
    let both = variables(a).chain(variables(b));
    let past_highest = both.map(|(id, _)| id.to_idx() + 1).max();
    (0..past_highest.unwrap_or(0))
        .map(|id| power(b, id).cmp(&power(a, id)))
        .find(|cmp| cmp.is_ne())
        .unwrap_or(CmpOrd::Equal)
}

fn power<I: Id, P: Exponent>(monomial: &Monomial<Order, I, P>, id: usize) -> P {
    variables(monomial)
        .find(|(i, _)| i.to_idx() == id)
        .map_or(P::zero(), |(_, power)| power.clone())
}
