//! Monomials and ratios as one power for each variable.

use std::cmp::Ordering;

use super::mutation::{Mutation, Rules};

/// The power of each variable, by id. A ratio's powers may be negative.
#[derive(Debug, Clone, PartialEq, Eq, Hash)]
pub struct Powers(pub Vec<i32>);

impl Powers {
    pub fn one(variables: usize) -> Self {
        Powers(vec![0; variables])
    }

    /// No power of self exceeds the other's.
    pub fn divides(&self, other: &Self) -> bool {
        self.pairs(other).all(|(a, b)| a <= b)
    }

    pub fn gcd(&self, other: &Self) -> Self {
        self.with(other, i32::min)
    }

    pub fn times(&self, other: &Self) -> Self {
        self.with(other, |a, b| a + b)
    }

    /// The ratio of self and the other.
    pub fn over(&self, other: &Self) -> Self {
        self.with(other, |a, b| a - b)
    }

    /// Graded reverse lexicographic order as document 01 states it.
    pub fn compare(&self, other: &Self, rules: Rules) -> Ordering {
        let by_total = if rules.has(Mutation::TotalIgnored) {
            Ordering::Equal
        } else {
            self.total().cmp(&other.total())
        };
        by_total.then_with(|| self.break_tie(other, rules))
    }

    /// At the smallest id where powers differ, the smaller power is larger.
    fn break_tie(&self, other: &Self, rules: Rules) -> Ordering {
        let mut differing = self.pairs(other).filter(|(a, b)| a != b);
        let at = if rules.has(Mutation::TieAtLargestId) {
            differing.last()
        } else {
            differing.next()
        };
        let by_power = at.map_or(Ordering::Equal, |(a, b)| b.cmp(&a));
        if rules.has(Mutation::TieLargerPowerIsLarger) {
            by_power.reverse()
        } else {
            by_power
        }
    }

    pub fn total(&self) -> i32 {
        self.0.iter().sum()
    }

    /// The highest id with a power, 0 for one.
    pub fn highest_id(&self) -> usize {
        self.0.iter().rposition(|power| *power != 0).unwrap_or(0)
    }

    pub fn is_one(&self) -> bool {
        self.0.iter().all(|power| *power == 0)
    }

    /// Id and power of the variables in falling id.
    pub fn vars(&self) -> impl Iterator<Item = (u16, i32)> + Clone + '_ {
        let vars = self.0.iter().enumerate().rev();
        vars.filter(|(_, power)| **power != 0)
            .map(|(id, power)| (id as u16, *power))
    }

    fn pairs<'a>(&'a self, other: &'a Self) -> impl Iterator<Item = (i32, i32)> + 'a {
        self.0.iter().copied().zip(other.0.iter().copied())
    }

    fn with(&self, other: &Self, op: impl Fn(i32, i32) -> i32) -> Self {
        Powers(self.pairs(other).map(|(a, b)| op(a, b)).collect())
    }
}

/// A signature index with signature monomial / lm.
#[derive(Debug, Clone, PartialEq, Eq, Hash)]
pub struct Ratio {
    pub index: u32,
    pub monomial: Powers,
}

impl Ratio {
    /// Index 0 and monomial one.
    pub fn one(variables: usize) -> Self {
        Ratio {
            index: 0,
            monomial: Powers::one(variables),
        }
    }

    /// By index, then monomial.
    pub fn compare(&self, other: &Self, rules: Rules) -> Ordering {
        let by_index = compare_indexes(self.index, other.index, rules);
        by_index.then_with(|| self.monomial.compare(&other.monomial, rules))
    }
}

pub fn compare_indexes(a: u32, b: u32, rules: Rules) -> Ordering {
    let bits = match rules.has(Mutation::IndexesIn27Bits) {
        true => 27,
        false => 28,
    };
    let low = |index: u32| index & ((1 << bits) - 1);
    low(a).cmp(&low(b))
}
