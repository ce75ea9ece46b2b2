//! The original's answers.

use std::cmp::Ordering;

use original::oracle::{monomial, variables, Map, Maxima, Monomial, Var};

use super::{are_variables, fits, read_maxima, Answer, Leaf, Operands, Work};
use crate::{
    order::Order,
    original_run::{read_product, read_quotient, Words},
    words::{monomial_words, ratio_words, word, ANSWER, MAX_POWER},
};

pub fn answer(work: &Work) -> Answer {
    let variables = are_variables(work.variables)?;
    let words = match &work.operands {
        Operands::Two(a, b) => {
            let read = match work.leaf {
                Leaf::EqRatio | Leaf::OrdRatio => read_quotient,
                _ => read_product,
            };
            let a = whole(a, variables, read)?;
            let b = whole(b, variables, read)?;
            of_two(work.leaf, monomial(&a), monomial(&b))?
        }
        Operands::Masked { maxima, monomial } => {
            let maxima = read_maxima(variables, maxima)?;
            let vars = whole(monomial, variables, read_product)?;
            masked(work.leaf, &maxima, &vars)
        }
        Operands::Grown { maxima, percentage } => {
            let maxima = Maxima::new::<Order>(&read_maxima(variables, maxima)?);
            yes(maxima.has_grown_beyond_percentage(*percentage))
        }
        Operands::Masks(a, b) => vec![u32::from(is_unsure(*a, *b))],
    };
    fits(words, work)
}

/// Question 7: the words are one monomial, or ratio, and no more.
fn whole(
    words: &[u32],
    variables: usize,
    read: fn(&mut Words, usize) -> Option<Vec<Var>>,
) -> Result<Vec<Var>, u32> {
    let mut words = words.iter().copied();
    let vars = read(&mut words, variables).ok_or(7u32)?;
    match words.next() {
        None => Ok(vars),
        Some(_) => Err(7),
    }
}

fn of_two(leaf: Leaf, a: Monomial<Order>, b: Monomial<Order>) -> Answer {
    Ok(match leaf {
        Leaf::Gcd => monomial_words(vars(&a.gcd(&b))),
        Leaf::WholeDivision => match a.whole_division(&b) {
            Some(quotient) => monomial_words(vars(&quotient)),
            None => yes(false),
        },
        Leaf::Divides => yes(a.divides(&b)),
        Leaf::FractionDivision => ratio_words(vars(&a.fraction_division(&b))),
        Leaf::Mul => {
            let product = a * b;
            if vars(&product).any(|(_, power)| power > MAX_POWER) {
                return Err(9);
            }
            monomial_words(vars(&product))
        }
        Leaf::Eq | Leaf::EqRatio => yes(a == b),
        Leaf::Ord | Leaf::OrdRatio => compare(&a, &b),
        _ => unreachable!("{leaf:?} takes other operands"),
    })
}

fn masked(leaf: Leaf, maxima: &[i32], vars: &[Var]) -> Vec<u32> {
    match leaf {
        Leaf::Mask => vec![Map::new::<Order>(maxima).mask(&monomial::<Order, i32>(vars))],
        Leaf::Update => {
            let mut maxima = Maxima::new::<Order>(maxima);
            maxima.update::<Order>(vars);
            maxima.get().iter().map(|m| *m as u32).collect()
        }
        _ => unreachable!("{leaf:?} takes other operands"),
    }
}

/// What the original's mask test says of two masks, which are made from
/// monomials: of 32 variables with maximum 1 each has the bit of its id.
fn is_unsure(a: u32, b: u32) -> bool {
    let with_mask = |mask: u32| {
        let ids = (0..32u16).rev().filter(|id| mask >> id & 1 == 1);
        monomial::<Order, i32>(&ids.map(|id| (id, 1)).collect::<Vec<Var>>())
    };
    Map::new::<Order>(&[1; 32]).is_unsure(&with_mask(a), &with_mask(b))
}

fn compare(a: &Monomial<Order>, b: &Monomial<Order>) -> Vec<u32> {
    let payload = match a.cmp(b) {
        Ordering::Less => 0,
        Ordering::Equal => 1,
        Ordering::Greater => 2,
    };
    vec![word(ANSWER, payload)]
}

fn yes(yes: bool) -> Vec<u32> {
    vec![word(ANSWER, yes.into())]
}

fn vars(monomial: &Monomial<Order>) -> impl Iterator<Item = Var> + '_ {
    variables(monomial).map(|(id, power)| (*id, *power))
}
