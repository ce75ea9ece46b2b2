//! The model's answers.

use super::{are_variables, fits, read_maxima, Answer, Leaf, Operands, Work};
use crate::{
    model::{
        calls::{read_monomial, read_ratio},
        divmask::{has_grown_beyond_percentage, update, Map},
        mutation::Rules,
        powers::Powers,
    },
    words::{monomial_words, ratio_words, word, ANSWER, MAX_POWER},
};

pub fn answer(work: &Work) -> Answer {
    let variables = are_variables(work.variables)?;
    let words = match &work.operands {
        Operands::Two(a, b) => {
            let read = match work.leaf {
                Leaf::EqRatio | Leaf::OrdRatio => read_ratio,
                _ => read_monomial,
            };
            let a = whole(read(a, variables, Rules::document_01()))?;
            let b = whole(read(b, variables, Rules::document_01()))?;
            of_two(work.leaf, &a, &b)?
        }
        Operands::Masked { maxima, monomial } => {
            let maxima = read_maxima(variables, maxima)?;
            let monomial = whole(read_monomial(monomial, variables, Rules::document_01()))?;
            masked(work.leaf, maxima, &monomial)
        }
        Operands::Grown { maxima, percentage } => {
            let maxima = read_maxima(variables, maxima)?;
            number(has_grown_beyond_percentage(&maxima, *percentage).into())
        }
        Operands::Masks(a, b) => vec![u32::from(a & !b == 0)],
    };
    fits(words, work)
}

/// Question 7: something was read, and nothing is left of the words.
fn whole(read: Option<(Powers, &[u32])>) -> Result<Powers, u32> {
    match read {
        Some((powers, [])) => Ok(powers),
        _ => Err(7),
    }
}

fn of_two(leaf: Leaf, a: &Powers, b: &Powers) -> Answer {
    Ok(match leaf {
        Leaf::Gcd => monomial_words(a.gcd(b).vars()),
        Leaf::WholeDivision if b.divides(a) => monomial_words(a.over(b).vars()),
        Leaf::WholeDivision => number(0),
        Leaf::Divides => number(a.divides(b).into()),
        Leaf::FractionDivision => ratio_words(a.over(b).vars()),
        Leaf::Mul => {
            let product = a.times(b);
            if product.0.iter().any(|power| *power > MAX_POWER) {
                return Err(9);
            }
            monomial_words(product.vars())
        }
        Leaf::Eq | Leaf::EqRatio => number((a == b).into()),
        _ => number((a.compare(b, Rules::document_01()) as i32 + 1) as u32),
    })
}

fn masked(leaf: Leaf, mut maxima: Vec<i32>, monomial: &Powers) -> Vec<u32> {
    if leaf == Leaf::Mask {
        return vec![Map::new(&maxima, Rules::document_01()).mask(monomial)];
    }
    update(&mut maxima, monomial, Rules::document_01());
    maxima.into_iter().map(|m| m as u32).collect()
}

fn number(payload: u32) -> Vec<u32> {
    vec![word(ANSWER, payload)]
}
