//! Monomials, entries and queries, drawn.

use harness::{
    model::{powers::Powers, state::Entry, Kind},
    rng::Rng,
};

use super::Shape;

pub const HIGHEST_POWER: i32 = 12;

/// Signature indexes.
pub const INDICES: usize = 8;

/// Powers from 1 to the highest, of three variables at least.
pub fn draw_powers(variables: usize, rng: &mut Rng) -> Powers {
    let mut powers = Powers::one(variables);
    let mut missing = rng.between(3, variables as i32);
    while missing > 0 {
        let power = &mut powers.0[rng.below(variables)];
        if *power == 0 {
            *power = rng.between(1, HIGHEST_POWER);
            missing -= 1;
        }
    }
    powers
}

pub fn draw_entry(shape: Shape, rng: &mut Rng) -> Entry {
    let lm = draw_powers(shape.variables, rng);
    match shape.kind {
        Kind::Monomial => Entry {
            index: 0,
            sign: Powers::one(shape.variables),
            lm,
        },
        Kind::Ratio => Entry {
            index: rng.below(INDICES) as u32,
            sign: draw_powers(shape.variables, rng),
            lm,
        },
    }
}

/// Drawn as entries are, and in half of the cases multiplied by one of them, so
/// that it has a divisor.
pub fn draw_query(entries: &[Entry], rng: &mut Rng) -> Entry {
    let near = rng.choose(entries);
    let variables = near.lm.0.len();
    let mut query = Entry {
        index: rng.below(INDICES) as u32,
        sign: draw_powers(variables, rng),
        lm: draw_powers(variables, rng),
    };
    if rng.chance(50) {
        query.index = near.index;
        query.sign = query.sign.times(&near.sign);
        query.lm = query.lm.times(&near.lm);
    }
    query
}
