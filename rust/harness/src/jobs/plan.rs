//! The sizes of a job.

use super::Mode;
use crate::{
    model::{Kind, Opening},
    rng::Rng,
    words::{MAX_CAPACITY, MAX_POWER},
};

pub struct Plan {
    kind: Kind,
    pub variables: usize,
    /// No power of an lm is above this.
    pub tallest: i32,
    pub inserts: usize,
    /// Searches for a hundred inserts.
    pub searches: usize,
    pub indexes: Indexes,
}

/// The signature indexes of a job: so many from each of these on.
#[derive(Clone, Copy)]
pub struct Indexes {
    pub from: &'static [u32],
    pub count: u32,
}

impl Indexes {
    pub fn draw(self, rng: &mut Rng) -> u32 {
        rng.choose(self.from) + rng.below(self.count as usize) as u32
    }
}

/// So many entries are never split.
const FEW: usize = 40;

/// Where indexes have one bit more, or no further one.
const WIDE: [u32; 5] = [
    0,
    (1 << 16) - 1,
    (1 << 20) - 1,
    (1 << 27) - 1,
    (1 << 28) - 3,
];

impl Plan {
    pub fn draw(mode: Mode, rng: &mut Rng) -> Self {
        Plan {
            kind: kind(mode, rng),
            variables: variables(mode, rng) as usize,
            tallest: tallest(mode, rng),
            inserts: inserts(mode, rng) as usize,
            searches: searches(mode, rng),
            indexes: Indexes {
                from: match mode {
                    Mode::WideIndexes => &WIDE,
                    _ => &[0],
                },
                count: rng.between(1, 3) as u32,
            },
        }
    }

    pub fn opening(&self, mode: Mode, rng: &mut Rng) -> Opening {
        let capacity = match mode {
            Mode::Capacity => (self.inserts + rng.below(3)).saturating_sub(1).max(1),
            Mode::Malformed if self.inserts > FEW => self.inserts - rng.below(10),
            Mode::Small | Mode::Malformed => 1 + rng.below(FEW),
            Mode::Full => MAX_CAPACITY,
            _ => *rng.choose(&[self.inserts + 4, 1000, MAX_CAPACITY]),
        };
        let tallest = match mode {
            Mode::TallMasks => self.tallest,
            _ => *rng.choose(&[1, self.tallest, 33]),
        };
        let maxima = (0..self.variables).map(|_| rng.between(1, tallest));
        Opening {
            kind: self.kind,
            capacity,
            maxima: maxima.collect(),
        }
    }
}

fn kind(mode: Mode, rng: &mut Rng) -> Kind {
    match mode {
        Mode::Rising | Mode::Falling | Mode::Crowding | Mode::BothEnds => Kind::Ratio,
        Mode::EqualRatios | Mode::WideIndexes | Mode::FarTotals => Kind::Ratio,
        Mode::Full if rng.chance(40) => Kind::Ratio,
        _ => *rng.choose(&[Kind::Monomial, Kind::Ratio]),
    }
}

fn variables(mode: Mode, rng: &mut Rng) -> i32 {
    match mode {
        Mode::Small | Mode::Capacity => rng.between(1, 3),
        Mode::Rising | Mode::Falling | Mode::Crowding | Mode::BothEnds => rng.between(1, 4),
        Mode::TallPowers => rng.between(1, 4),
        Mode::Lowering | Mode::Full => rng.between(2, 4),
        Mode::LowQueries | Mode::Masks => rng.between(3, 8),
        Mode::TallMasks if rng.chance(50) => rng.between(3, 8),
        Mode::ManyVariables => rng.between(20, 64),
        Mode::Dimensions | Mode::FarTotals if rng.chance(50) => 64,
        Mode::Dimensions | Mode::FarTotals | Mode::TallMasks => rng.between(33, 64),
        _ => rng.between(1, 6),
    }
}

fn tallest(mode: Mode, rng: &mut Rng) -> i32 {
    match mode {
        Mode::Small | Mode::Capacity | Mode::Malformed => rng.between(1, 3),
        Mode::Rising | Mode::Falling | Mode::Crowding | Mode::BothEnds => rng.between(1, 6),
        Mode::TallPowers | Mode::TallMasks | Mode::Full => rng.between(20_000, MAX_POWER),
        Mode::FarTotals => MAX_POWER,
        _ => rng.between(2, 30),
    }
}

fn inserts(mode: Mode, rng: &mut Rng) -> i32 {
    match mode {
        Mode::Capacity | Mode::Malformed if rng.chance(25) => rng.between(65, 130),
        Mode::Small | Mode::Capacity | Mode::Malformed => rng.between(1, FEW as i32),
        Mode::Repeats => rng.between(60, 72),
        Mode::ManyVariables => rng.between(66, 160),
        Mode::Masks | Mode::LowQueries => rng.between(200, 600),
        Mode::Full if rng.chance(5) => MAX_CAPACITY as i32 + rng.between(1, 4),
        Mode::Full => rng.between(300, 500),
        Mode::FarTotals => rng.between(65, 130),
        _ => rng.between(65, 260),
    }
}

/// Few searches let leaves grow far beyond 64 before they are split.
fn searches(mode: Mode, rng: &mut Rng) -> usize {
    match mode {
        Mode::Small | Mode::Capacity | Mode::Malformed => 200,
        Mode::Repeats => 20,
        Mode::Masks | Mode::LowQueries => *rng.choose(&[0, 0, 3, 20]),
        Mode::Full => *rng.choose(&[1, 4]),
        Mode::Lowering => *rng.choose(&[10, 70, 200]),
        Mode::TallMasks | Mode::Dimensions => *rng.choose(&[10, 70]),
        _ => *rng.choose(&[2, 10, 70]),
    }
}
