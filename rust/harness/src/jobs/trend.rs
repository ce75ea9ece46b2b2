//! Ratios that rise, fall, crowd or do both.

use super::{plan::Plan, Mode};
use crate::{
    model::{powers::Powers, state::Entry},
    rng::Rng,
};

/// How ratios run from entry to entry.
pub struct Trend {
    /// For each entry its place among the ratios.
    places: Vec<i32>,
    carrier: Carrier,
}

/// What of a ratio follows the trend.
enum Carrier {
    Index,
    /// The ratio is a power of this variable.
    Ratio(usize),
    /// The signature is a power of this variable, the lm makes the ratio vary.
    Sign(usize),
}

impl Trend {
    pub fn draw(mode: Mode, plan: &Plan, rng: &mut Rng) -> Self {
        let id = rng.below(plan.variables);
        let mut places = Places::new(mode, plan.inserts);
        Self {
            places: (0..plan.inserts).map(|_| places.next(rng)).collect(),
            carrier: match rng.below(4) {
                0 => Carrier::Index,
                1 | 2 => Carrier::Ratio(id),
                _ => Carrier::Sign(id),
            },
        }
    }

    /// A random entry with the ratio of this place.
    pub fn applied(&self, at: usize, random: Entry) -> Entry {
        let place = self.places[at];
        let power = |id| {
            let mut power = Powers::one(random.lm.0.len());
            power.0[id] = place;
            power
        };
        match self.carrier {
            Carrier::Index => Entry {
                index: place as u32,
                ..random
            },
            Carrier::Ratio(id) => Entry {
                index: 0,
                sign: power(id).times(&random.lm),
                lm: random.lm,
            },
            Carrier::Sign(id) => Entry {
                index: 0,
                sign: power(id),
                lm: random.lm,
            },
        }
    }
}

/// Places lie between 0 and this.
const LAST: i32 = 30_000;

/// Places of which most follow the mode, the others lie anywhere among those so
/// far.
struct Places {
    mode: Mode,
    low: i32,
    high: i32,
    /// Where both ends are moved by turns, whether it was the high one last.
    was_high: bool,
    widest: i32,
}

impl Places {
    fn new(mode: Mode, count: usize) -> Self {
        let (low, high) = match mode {
            Mode::Rising => (0, 0),
            Mode::Falling => (LAST, LAST),
            Mode::BothEnds => (LAST / 2, LAST / 2),
            _ => (0, LAST),
        };
        Places {
            mode,
            low,
            high,
            was_high: false,
            widest: LAST / (count as i32 + 1),
        }
    }

    fn next(&mut self, rng: &mut Rng) -> i32 {
        if rng.chance(25) {
            return match self.mode {
                Mode::Crowding => rng.between(0, LAST),
                _ => rng.between(self.low, self.high),
            };
        }
        let step = rng.between(1, self.widest);
        // By turns the high one first: above there is one label more than below.
        self.was_high = match self.mode {
            Mode::Rising => true,
            Mode::Falling => false,
            _ => !self.was_high,
        };
        let outwards = match self.mode {
            Mode::Crowding => -step,
            _ => step,
        };
        match self.was_high {
            true => self.high += outwards,
            false => self.low -= outwards,
        }
        match self.was_high {
            true => self.high,
            false => self.low,
        }
    }
}
