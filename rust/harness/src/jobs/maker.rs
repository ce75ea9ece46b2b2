//! Writes a job's calls: inserts, and searches near what is held.

use super::{
    entries::Entries,
    plan::{Indexes, Plan},
    Mode,
};
use crate::{
    model::{
        mutation::Rules,
        powers::{Powers, Ratio},
        state::Entry,
        Kind, Opening,
    },
    rng::Rng,
    words::{kind, monomial_words, ratio_words, word, CALL, END, INDEX, MAX_POWER},
};

pub struct Maker<'a> {
    rng: Rng,
    opening: &'a Opening,
    indexes: Indexes,
    list: Vec<u32>,
    held: Vec<Entry>,
}

impl<'a> Maker<'a> {
    pub fn new(rng: Rng, opening: &'a Opening, indexes: Indexes) -> Self {
        Self {
            rng,
            opening,
            indexes,
            list: vec![],
            held: vec![],
        }
    }

    pub fn make(mut self, mode: Mode, plan: &Plan, entries: Entries) -> Vec<u32> {
        for at in 0..plan.inserts {
            let entry = entries.next(at, &mut self.rng);
            self.call(mode, |maker| maker.insert(entry));
            let certain = plan.searches / 100;
            let more = usize::from(self.rng.chance(plan.searches % 100));
            for _ in 0..certain + more {
                self.call(mode, |maker| maker.search(mode));
            }
        }
        for _ in 0..self.rng.below(4) {
            self.call(mode, |maker| maker.search(mode));
        }
        self.list
    }

    /// So many calls near these entries, some of them damaged.
    pub fn make_near(mut self, held: Vec<Entry>, count: usize) -> Vec<u32> {
        self.held = held;
        for _ in 0..count {
            self.call(Mode::Malformed, |maker| match maker.rng.chance(40) {
                true => {
                    let (index, sign) = maker.near_signature();
                    let lm = maker.near_lm(Mode::Malformed);
                    maker.insert(Entry { index, sign, lm });
                }
                false => maker.search(Mode::Malformed),
            });
        }
        self.list
    }

    fn variables(&self) -> usize {
        self.opening.maxima.len()
    }

    /// Writes one call, in the mode for it not always a good one.
    fn call(&mut self, mode: Mode, write: impl FnOnce(&mut Self)) {
        let start = self.list.len();
        write(self);
        if mode == Mode::Malformed && self.rng.chance(30) {
            let mut call = self.list.split_off(start);
            self.damage(&mut call);
            self.list.append(&mut call);
        }
    }

    /// Damages a call anywhere behind its kind 6 word, or that word's payload.
    fn damage(&mut self, call: &mut Vec<u32>) {
        let at = self.rng.below(call.len());
        match self.rng.below(8) {
            0 => call[0] = word(CALL, self.rng.below(9) as u32),
            1 => call.truncate(1.max(at)),
            2 => call.push(
                *self
                    .rng
                    .choose(&[0, 1, 0x1000_0001, 0x3000_0000, 0x4000_0000]),
            ),
            3 => call[at] ^= 1 << self.rng.below(28),
            4 if at > 0 => call[at] ^= 1 << (28 + self.rng.below(4)),
            5 if at > 0 => call[at] = call[at] & 0xFFFF_0000 | self.odd_power(),
            6 if at > 0 => repeat_variable(call, at),
            _ if at > 0 => call.swap(at, 1),
            _ => call[0] ^= 1 << self.rng.below(28),
        }
    }

    /// A power field at the edge of what is taken.
    fn odd_power(&mut self) -> u32 {
        *self.rng.choose(&[0, 1, 0x7FFF, 0x8000, 0x8001, 0xFFFF])
    }

    fn insert(&mut self, entry: Entry) {
        match self.opening.kind {
            Kind::Monomial => self.write(0, None, &[monomial_words(entry.lm.vars())]),
            Kind::Ratio => {
                let body = [
                    monomial_words(entry.sign.vars()),
                    monomial_words(entry.lm.vars()),
                ];
                self.write(2, Some(entry.index), &body);
            }
        }
        self.held.push(entry);
    }

    fn search(&mut self, mode: Mode) {
        if self.opening.kind == Kind::Monomial {
            let monomial = self.near_lm(mode);
            return self.write(1, None, &[monomial_words(monomial.vars())]);
        }
        match self.rng.below(5) {
            0 | 1 => {
                let lm = self.near_lm(mode);
                let ratio = self.near_ratio();
                self.write_ratio(3, ratio, &lm);
            }
            2 => {
                let lm = self.near_lm(mode);
                let ratio = self.ratio_for_high(&lm);
                self.write_ratio(4, ratio, &lm);
            }
            3 => {
                let (index, sign) = self.near_signature();
                self.write(5, Some(index), &[monomial_words(sign.vars())]);
            }
            _ => {
                let (index, sign, lm) = self.for_singular(mode);
                let body = [monomial_words(sign.vars()), monomial_words(lm.vars())];
                self.write(6, Some(index), &body);
            }
        }
    }

    /// Index, signature monomial and lm, often of a ratio that is held.
    fn for_singular(&mut self, mode: Mode) -> (u32, Powers, Powers) {
        let (index, mut sign) = self.near_signature();
        let mut lm = self.near_lm(mode);
        if self.rng.chance(60) {
            return (index, sign, lm);
        }
        match self.some_entry() {
            Some(entry) => {
                // The same multiple of both, as far as powers go.
                lm = entry.lm;
                let id = self.rng.below(lm.0.len());
                let room = MAX_POWER - entry.sign.0[id].max(lm.0[id]);
                let by = self.rng.between(0, room.min(3));
                sign = entry.sign;
                sign.0[id] += by;
                lm.0[id] += by;
                (entry.index, sign, lm)
            }
            None => (index, sign, lm),
        }
    }

    /// An index of the job, or the one above.
    fn near_index(&mut self) -> u32 {
        let index = self.indexes.draw(&mut self.rng) + self.rng.below(2) as u32;
        index.min((1 << 28) - 1)
    }

    fn write_ratio(&mut self, number: u32, ratio: Ratio, lm: &Powers) {
        let body = [
            ratio_words(ratio.monomial.vars()),
            monomial_words(lm.vars()),
        ];
        self.write(number, Some(ratio.index), &body);
    }

    fn write(&mut self, number: u32, index: Option<u32>, body: &[Vec<u32>]) {
        self.list.push(word(CALL, number));
        self.list.extend(index.map(|index| word(INDEX, index)));
        self.list.extend(body.iter().flatten());
    }

    fn near_lm(&mut self, mode: Mode) -> Powers {
        let mut lm = match self.some_entry() {
            Some(entry) => entry.lm,
            None => Powers::one(self.variables()),
        };
        self.move_a_little(&mut lm);
        let id = self.rng.below(self.variables());
        match mode {
            Mode::LowQueries => lm.0[id..].fill(0),
            Mode::Masks | Mode::TallMasks if self.rng.chance(50) => {
                lm.0[id] = self.rng.between(0, lm.0[id]);
            }
            _ => (),
        }
        lm
    }

    fn near_signature(&mut self) -> (u32, Powers) {
        match self.some_entry() {
            Some(mut entry) => {
                self.move_a_little(&mut entry.sign);
                (entry.index, entry.sign)
            }
            None => (0, Powers::one(self.variables())),
        }
    }

    /// A ratio equal to a held one, beside one, or far from all.
    fn near_ratio(&mut self) -> Ratio {
        let mut ratio = match self.some_entry() {
            Some(entry) => entry.ratio(),
            None => Ratio::one(self.variables()),
        };
        let id = self.rng.below(self.variables());
        match self.rng.below(10) {
            0..=4 => (),
            5..=7 => ratio.monomial.0[id] += self.rng.between(-1, 1),
            8 => ratio.index = self.near_index(),
            _ => ratio.monomial.0[id] = *self.rng.choose(&[-MAX_POWER, MAX_POWER]),
        }
        limit(&mut ratio.monomial, -MAX_POWER);
        ratio
    }

    /// Mostly a ratio below those of all divisors, as the original demands.
    fn ratio_for_high(&mut self, lm: &Powers) -> Ratio {
        let divisors = self.held.iter().filter(|entry| entry.lm.divides(lm));
        let least = divisors
            .map(Entry::ratio)
            .min_by(|a, b| a.compare(b, Rules::document_01()));
        match least {
            Some(mut ratio) if self.rng.chance(85) => {
                let id = self.rng.below(self.variables());
                ratio.monomial.0[id] -= self.rng.between(1, 3);
                limit(&mut ratio.monomial, -MAX_POWER);
                ratio
            }
            _ => self.near_ratio(),
        }
    }

    /// An entry that was inserted, often one of the last.
    fn some_entry(&mut self) -> Option<Entry> {
        if self.held.is_empty() || self.rng.chance(3) {
            return None;
        }
        let from = match self.rng.chance(20) {
            true => self.held.len().saturating_sub(3),
            false => 0,
        };
        Some(self.rng.choose(&self.held[from..]).clone())
    }

    /// Raises some powers and lowers one, each not in every case.
    fn move_a_little(&mut self, monomial: &mut Powers) {
        for power in &mut monomial.0 {
            if self.rng.chance(25) {
                *power += self.rng.between(1, 3);
            }
        }
        if self.rng.chance(50) {
            let id = self.rng.below(monomial.0.len());
            monomial.0[id] -= 1;
        }
        limit(monomial, 0);
    }
}

/// Writes the word at a place twice and counts it in the next end word.
fn repeat_variable(call: &mut Vec<u32>, at: usize) {
    call.insert(at, call[at]);
    if let Some(end) = call[at..].iter_mut().find(|word| kind(**word) == END) {
        *end += 1;
    }
}

fn limit(powers: &mut Powers, least: i32) {
    for power in &mut powers.0 {
        *power = (*power).clamp(least, MAX_POWER);
    }
}
