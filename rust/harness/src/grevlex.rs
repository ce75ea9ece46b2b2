//! Whether the original's `Grevlex` is document 01's order, on all small cases.

use std::cmp::Ordering as CmpOrd;

use original::{
    oracle::{monomial, Var},
    polynomial::monomial_ordering::{Grevlex, Ordering},
};

use crate::{
    leaves::samples::grid,
    model::{mutation::Rules, powers::Powers},
    order::Order,
};

/// Variables and largest power, of either sign, of each set of cases, the
/// smaller ones first.
const GRIDS: [(usize, i32); 6] = [(1, 20), (2, 1), (3, 1), (2, 6), (3, 3), (4, 2)];

/// What the comparison of the orders came to.
#[derive(Debug)]
pub struct Report {
    pub pairs: usize,
    /// The first pair on which two orders differ: `Grevlex`, the harness's
    /// `Order`, and the model's.
    pub difference: Option<(Powers, Powers, [CmpOrd; 3])>,
}

pub fn compare_orders() -> Report {
    let mut pairs = 0;
    for (variables, power) in GRIDS {
        let grid = grid(variables, -power, power);
        for a in &grid {
            for b in &grid {
                pairs += 1;
                let orders = orders(a, b);
                if orders.iter().any(|order| *order != orders[0]) {
                    let difference = Some((a.clone(), b.clone(), orders));
                    return Report { pairs, difference };
                }
            }
        }
    }
    Report {
        pairs,
        difference: None,
    }
}

fn orders(a: &Powers, b: &Powers) -> [CmpOrd; 3] {
    let (a_vars, b_vars): (Vec<Var>, Vec<Var>) = (a.vars().collect(), b.vars().collect());
    [
        by::<Grevlex>(&a_vars, &b_vars),
        by::<Order>(&a_vars, &b_vars),
        a.compare(b, Rules::document_01()),
    ]
}

fn by<O: Ordering>(a: &[Var], b: &[Var]) -> CmpOrd {
    monomial::<O, i32>(a).cmp(&monomial::<O, i32>(b))
}
