//! Masks, maxima and growth.

use super::{
    mutation::{Mutation, Rules},
    powers::Powers,
};

const BITS: usize = 32;

/// For each variable its cutoffs, one bit each, the bits of variable 0 lowest.
#[derive(Debug, Clone)]
pub struct Map {
    cutoffs: Vec<Vec<i32>>,
    rules: Rules,
}

impl Map {
    pub fn new(maxima: &[i32], rules: Rules) -> Self {
        let variables = maxima.len();
        let cutoffs = maxima
            .iter()
            .enumerate()
            .map(|(id, maximum)| cutoffs(bits(variables, id, rules) as i32, *maximum, rules))
            .collect();
        Self { cutoffs, rules }
    }

    pub fn mask(&self, monomial: &Powers) -> u32 {
        let exceeds = |power: i32, cutoff: i32| {
            power > cutoff || power == cutoff && self.rules.has(Mutation::BitAtCutoff)
        };
        let bits = self
            .cutoffs
            .iter()
            .zip(&monomial.0)
            .flat_map(|(cutoffs, power)| cutoffs.iter().map(|cutoff| exceeds(*power, *cutoff)));
        bits.enumerate()
            .fold(0, |mask, (at, bit)| mask | u32::from(bit) << at)
    }
}

/// How many bits a variable has.
fn bits(variables: usize, id: usize, rules: Rules) -> usize {
    let more = if rules.has(Mutation::ExtraBitsLast) {
        id >= variables - BITS % variables
    } else {
        id < BITS % variables
    };
    BITS / variables + usize::from(more)
}

/// The short exponent vector: bit j of a variable is set where its power is above
/// j. The bits are shared out as in a mask.
pub fn vector(monomial: &Powers, rules: Rules) -> u32 {
    let variables = monomial.0.len();
    let powers = monomial.0.iter().enumerate();
    let set = powers.flat_map(|(id, power)| {
        (0..bits(variables, id, rules)).map(move |bit| *power > bit as i32)
    });
    set.enumerate()
        .fold(0, |vector, (at, set)| vector | u32::from(set) << at)
}

/// part × maximum / (bits + 1), rounded down, part 1 to bits.
fn cutoffs(bits: i32, maximum: i32, rules: Rules) -> Vec<i32> {
    let round = if rules.has(Mutation::CutoffRoundedUp) {
        bits
    } else {
        0
    };
    (1..=bits)
        .map(|part| (part * maximum + round) / (bits + 1))
        .collect()
}

/// Raises maxima to the powers of a monomial, from the highest id on, up to the
/// first variable that isn't above its maximum.
pub fn update(maxima: &mut [i32], monomial: &Powers, rules: Rules) {
    for (id, power) in monomial.vars() {
        let maximum = &mut maxima[usize::from(id)];
        if *maximum < power {
            *maximum = power;
        } else if !rules.has(Mutation::UpdateGoesOn) {
            return;
        }
    }
}

/// Whether the total has grown by more than the percentage of itself since it
/// was one for each variable.
pub fn has_grown_beyond_percentage(maxima: &[i32], percentage: u8) -> bool {
    let total: i32 = maxima.iter().sum();
    (total - maxima.len() as i32) * 100 / total > i32::from(percentage)
}
