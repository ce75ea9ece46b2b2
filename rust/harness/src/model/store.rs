//! What the tree is built over: entries, their dimensions and labels.

use super::{
    divmask::Map,
    labels::Labels,
    mutation::{Mutation, Rules},
    powers::{Powers, Ratio},
    query::Key,
    reach::Reached,
    tree::show_masked,
    Kind,
};

/// An entry of either kind of index. In a monomial index, signature and ratio
/// are one and unused.
#[derive(Debug, Clone)]
pub struct Entry {
    pub ratio: Ratio,
    pub sign: Powers,
    pub lm: Powers,
    /// The masks of lm and signature monomial, to be shown. No search asks them.
    pub masks: [u32; 2],
}

/// What the tree is built over.
#[derive(Debug, Clone)]
pub struct Store {
    pub rules: Rules,
    pub kind: Kind,
    pub variables: usize,
    pub map: Map,
    pub entries: Vec<Entry>,
    pub labels: Labels,
    pub reached: Reached,
}

impl Store {
    pub fn dimensions(&self) -> usize {
        self.variables + self.ratio_dimensions()
    }

    fn ratio_dimensions(&self) -> usize {
        match self.kind {
            Kind::Monomial => 0,
            Kind::Ratio => 1,
        }
    }

    pub fn dimension(&self, key: &Key) -> usize {
        match key {
            Key::Ratio { .. } => 0,
            Key::Power { id, .. } => id + self.ratio_dimensions(),
        }
    }

    /// What an entry is averaged by: its label, or the power of its lm.
    pub fn value(&self, number: usize, dim: usize) -> i64 {
        let entry = &self.entries[number];
        match dim.checked_sub(self.ratio_dimensions()) {
            Some(id) => entry.lm.0[id].into(),
            None if self.rules.has(Mutation::RatioAveragedByRank) => {
                self.labels.rank(&entry.ratio).unwrap() as i64
            }
            None => self.label(number),
        }
    }

    /// Takes an entry, whose number is then its place.
    pub fn push(&mut self, ratio: Ratio, sign: Powers, lm: Powers) -> usize {
        let masks = [self.map.mask(&lm), self.map.mask(&sign)];
        self.entries.push(Entry {
            ratio,
            sign,
            lm,
            masks,
        });
        self.entries.len() - 1
    }

    /// Makes the map of masks anew.
    pub fn remap(&mut self, map: Map) {
        self.map = map;
        for entry in &mut self.entries {
            entry.masks = [self.map.mask(&entry.lm), self.map.mask(&entry.sign)];
        }
    }

    pub fn label(&self, number: usize) -> i64 {
        let label = self.labels.known(&self.entries[number].ratio);
        label.unwrap().into()
    }

    /// The key of a split: the average, or the smallest ratio on the other
    /// side, of equals the first.
    pub fn key(&self, other: &[usize], dim: usize, average: i64) -> Key {
        if let Some(id) = dim.checked_sub(self.ratio_dimensions()) {
            return Key::Power {
                id,
                power: average as i32,
            };
        }
        let least = other.iter().map(|number| self.label(*number)).min();
        let mut smallest = other
            .iter()
            .copied()
            .filter(|number| Some(self.label(*number)) == least);
        let number = if self.rules.has(Mutation::RatioKeyIsFirst) {
            other.first().copied()
        } else if self.rules.has(Mutation::RatioKeyIsLastOfSmallest) {
            smallest.next_back()
        } else {
            smallest.next()
        };
        let number = number.unwrap();
        Key::Ratio {
            number,
            label: self.label(number),
        }
    }

    /// The key of a dimension with this word.
    pub fn key_of(&self, dim: usize, word: u32) -> Key {
        match dim.checked_sub(self.ratio_dimensions()) {
            Some(id) => Key::Power {
                id,
                power: word as i32,
            },
            None => Key::Ratio {
                number: word as usize,
                label: self.label(word as usize),
            },
        }
    }

    /// Writes an entry as the original's are shown.
    pub fn show(&self, number: usize, words: &mut Vec<u32>) {
        let entry = &self.entries[number];
        let [lm, sign] = entry.masks;
        match self.kind {
            Kind::Monomial => show_masked(lm, &entry.lm, words),
            Kind::Ratio => words.extend([number as u32, lm, sign]),
        }
    }

    pub fn is_below(&self, number: usize, key: &Key) -> bool {
        let entry = &self.entries[number];
        match key {
            Key::Power { id, power } => entry.lm.0[*id] < *power,
            Key::Ratio { label, .. } if self.rules.has(Mutation::LabelCopiedIntoKey) => {
                self.label(number) < *label
            }
            Key::Ratio { number: key, .. } => {
                let key = &self.entries[*key].ratio;
                entry.ratio.compare(key, self.rules).is_lt()
            }
        }
    }
}
