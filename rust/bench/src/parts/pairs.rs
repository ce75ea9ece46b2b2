//! Pairs of monomials, as the original's values and as words.

use harness::{images::samples::bytes, model::powers::Powers, rng::Rng, words::monomial_words};
use original::{
    oracle,
    polynomial::{
        divmask::{DivMap, MaximumExponentsTracker},
        monomial_ordering::Grevlex,
    },
};

use crate::sides::{
    drawing::{draw_powers, HIGHEST_POWER},
    monomial, Monomial,
};

/// Pairs of a round.
pub const PAIRS: usize = 1024;

/// Which pairs are drawn.
#[derive(Clone, Copy)]
pub enum Inputs {
    /// The first divides the second in half of them.
    HalfDivide,
    /// They have one total power.
    EqualTotals,
    /// The end word of the second has a wrong count.
    WrongCount,
}

/// What a round goes over.
pub struct Sample {
    pub variables: u32,
    pub pairs: Vec<Pair>,
    pub map: DivMap<u32, i32>,
    /// What the map was made from, as words.
    pub maxima: Vec<u8>,
}

pub struct Pair {
    pub small: Operand,
    pub large: Operand,
}

pub struct Operand {
    pub monomial: Monomial,
    pub words: Vec<u8>,
}

/// The same pairs in each run: of so many variables, at least three of them
/// present.
pub fn draw(variables: usize, inputs: Inputs) -> Sample {
    let mut rng = Rng::new(variables as u64);
    let pairs = (0..PAIRS).map(|at| draw_pair(variables, inputs, at, &mut rng));
    let mut tracker = MaximumExponentsTracker::new(variables);
    let maximum = |id| oracle::monomial::<Grevlex, i32>(&[(id, HIGHEST_POWER)]);
    for id in 0..variables as u16 {
        tracker.update(&maximum(id));
    }
    Sample {
        variables: variables as u32,
        pairs: pairs.collect(),
        map: DivMap::new(&tracker),
        maxima: (HIGHEST_POWER as u32).to_le_bytes().repeat(variables),
    }
}

fn draw_pair(variables: usize, inputs: Inputs, at: usize, rng: &mut Rng) -> Pair {
    let small = draw_powers(variables, rng);
    let large = match inputs {
        Inputs::EqualTotals => shift_power(&small, rng),
        _ if at.is_multiple_of(2) => small.times(&draw_powers(variables, rng)),
        _ => draw_powers(variables, rng),
    };
    let mut large = Operand::new(&large);
    if let Inputs::WrongCount = inputs {
        let end = large.words.len() - 4;
        large.words[end] += 1;
    }
    Pair {
        small: Operand::new(&small),
        large,
    }
}

/// The same with one power of a variable moved to another.
fn shift_power(powers: &Powers, rng: &mut Rng) -> Powers {
    let mut shifted = powers.clone();
    let from = powers.0.iter().position(|power| *power > 0);
    shifted.0[from.expect("a variable is present")] -= 1;
    shifted.0[rng.below(powers.0.len())] += 1;
    shifted
}

impl Operand {
    fn new(powers: &Powers) -> Self {
        Operand {
            monomial: monomial(powers),
            words: bytes(&monomial_words(powers.vars())),
        }
    }
}
