//! The entries that a job inserts.

use super::{
    plan::{Indexes, Plan},
    trend::Trend,
    Mode,
};
use crate::{
    model::{powers::Powers, state::Entry},
    rng::Rng,
    words::MAX_POWER,
};

/// Draws one entry after the other.
pub struct Entries {
    shape: Shape,
    variables: usize,
    tallest: i32,
    indexes: Indexes,
}

enum Shape {
    Random,
    Trend(Trend),
    /// One of these ratios for each entry.
    Ratios(Vec<Powers>),
    /// One of these entries, if the chance in a hundred comes.
    Repeated(Vec<Entry>, usize),
    /// A multiple of one of these monomials.
    Clusters(Vec<Powers>),
    /// For each variable one of these two powers.
    Pairs(Vec<(i32, i32)>),
    /// Few variables, from this one on.
    Sparse(usize),
    /// Multiples of this monomial, and when these are split others too.
    Lowered(Powers),
    /// All powers of signature monomial and lm small or large.
    FarApart,
    /// All powers anywhere up to the tallest, so that ratios differ.
    Anywhere,
}

impl Entries {
    pub fn draw(mode: Mode, plan: &Plan, rng: &mut Rng) -> Self {
        let mut entries = Entries {
            shape: Shape::Random,
            variables: plan.variables,
            tallest: plan.tallest,
            indexes: plan.indexes,
        };
        entries.shape = entries.draw_shape(mode, plan, rng);
        entries
    }

    fn draw_shape(&self, mode: Mode, plan: &Plan, rng: &mut Rng) -> Shape {
        match mode {
            Mode::Rising | Mode::Falling | Mode::Crowding | Mode::BothEnds => {
                Shape::Trend(Trend::draw(mode, plan, rng))
            }
            Mode::EqualRatios => {
                let count = rng.between(1, 4);
                Shape::Ratios((0..count).map(|_| self.monomial(rng, 3)).collect())
            }
            Mode::Repeats => {
                let count = rng.between(1, 2);
                let repeated = (0..count).map(|_| self.random(rng)).collect();
                Shape::Repeated(repeated, *rng.choose(&[95, 100]))
            }
            Mode::Masks => self.clusters(rng, |rng| self.monomial(rng, 30)),
            Mode::TallMasks => self.clusters(rng, |rng| self.tall(rng)),
            Mode::OddAverages => {
                let pairs = (0..self.variables).map(|_| odd_pair(rng));
                Shape::Pairs(pairs.collect())
            }
            Mode::ManyVariables => Shape::Sparse(0),
            Mode::Dimensions => Shape::Sparse(rng.below(self.variables)),
            Mode::Lowering => Shape::Lowered(self.all_between(5, 30, rng)),
            Mode::FarTotals => Shape::FarApart,
            Mode::Full => Shape::Anywhere,
            _ => Shape::Random,
        }
    }

    fn clusters(&self, rng: &mut Rng, draw: impl Fn(&mut Rng) -> Powers) -> Shape {
        let count = *rng.choose(&[1, 1, 2, 3]);
        Shape::Clusters((0..count).map(|_| draw(rng)).collect())
    }

    /// The entry to insert at this place of the job.
    pub fn next(&self, at: usize, rng: &mut Rng) -> Entry {
        match &self.shape {
            Shape::Random => self.random(rng),
            Shape::Trend(trend) => trend.applied(at, self.random(rng)),
            Shape::Ratios(ratios) => {
                let ratio = rng.choose(ratios);
                let entry = self.random(rng);
                Entry {
                    sign: ratio.times(&entry.lm),
                    ..entry
                }
            }
            Shape::Repeated(entries, percentage) => match rng.chance(*percentage) {
                true => rng.choose(entries).clone(),
                false => self.random(rng),
            },
            Shape::Clusters(clusters) => {
                let noise = self.monomial(rng, 8);
                self.signed(rng.choose(clusters).times(&noise), rng)
            }
            Shape::Pairs(pairs) => {
                let power = |(low, high): &(i32, i32)| *rng.choose(&[*low, *high]);
                let lm = Powers(pairs.iter().map(power).collect());
                self.signed(lm, rng)
            }
            Shape::Sparse(from) => self.entry(self.sparse(*from, rng), self.sparse(0, rng), rng),
            // A leaf of 65 is split, so a branch is lowered after that.
            Shape::Lowered(_) if at >= 65 && rng.chance(20) => {
                self.signed(self.sparse(0, rng), rng)
            }
            Shape::Lowered(gcd) => self.signed(gcd.times(&self.monomial(rng, 8)), rng),
            Shape::FarApart => self.entry(self.all_near(rng), self.all_near(rng), rng),
            Shape::Anywhere => {
                let [lm, sign] = [(); 2].map(|()| self.all_between(0, self.tallest, rng));
                self.entry(lm, sign, rng)
            }
        }
    }

    fn entry(&self, lm: Powers, sign: Powers, rng: &mut Rng) -> Entry {
        let index = self.indexes.draw(rng);
        Entry { index, sign, lm }
    }

    /// A monomial whose powers are all small or all large.
    fn all_near(&self, rng: &mut Rng) -> Powers {
        let (low, high) = *rng.choose(&[(0, 3), (0, 3), (MAX_POWER - 40, MAX_POWER)]);
        self.all_between(low, high, rng)
    }

    fn all_between(&self, low: i32, high: i32, rng: &mut Rng) -> Powers {
        let powers = (0..self.variables).map(|_| rng.between(low, high));
        Powers(powers.collect())
    }

    /// A monomial of which most powers are tall, but not so that a multiple has
    /// too tall ones.
    fn tall(&self, rng: &mut Rng) -> Powers {
        let power = |_| match rng.below(4) {
            0 => 0,
            _ => rng.between(1 << 14, MAX_POWER - 8),
        };
        Powers((0..self.variables).map(power).collect())
    }

    fn random(&self, rng: &mut Rng) -> Entry {
        self.signed(self.monomial(rng, self.tallest), rng)
    }

    /// Gives an lm a signature.
    fn signed(&self, lm: Powers, rng: &mut Rng) -> Entry {
        let sign = self.monomial(rng, self.tallest);
        self.entry(lm, sign, rng)
    }

    /// A monomial with powers up to a limit, some of them 0.
    pub fn monomial(&self, rng: &mut Rng, limit: i32) -> Powers {
        let limit = limit.min(MAX_POWER);
        let power = |_| match rng.below(4) {
            0 => 0,
            1 => rng.between(0, limit.min(3)),
            _ => rng.between(0, limit),
        };
        Powers((0..self.variables).map(power).collect())
    }

    /// A monomial of few variables, from one on.
    fn sparse(&self, from: usize, rng: &mut Rng) -> Powers {
        let mut powers = Powers::one(self.variables);
        for _ in 0..rng.between(0, 4) {
            let id = from + rng.below(self.variables - from);
            powers.0[id] = rng.between(1, self.tallest);
        }
        powers
    }
}

/// Two powers whose sum is odd.
fn odd_pair(rng: &mut Rng) -> (i32, i32) {
    let low = rng.between(0, 6);
    (low, low + rng.choose(&[1, 1, 3, 5]))
}
