//! The five searches: which sides of a branch they look at and what they make
//! of an entry.

use std::cmp::Ordering;

use super::{
    calls::Search,
    mutation::Mutation,
    powers::{compare_indexes, Powers, Ratio},
    store::Store,
};
use crate::words::{found, SINGULAR};

/// What a branch splits by.
#[derive(Debug, Clone)]
pub enum Key {
    Power {
        id: usize,
        power: i32,
    },
    /// The ratio of an entry. The label is the one it had at the split; it is
    /// there for a wrong rule.
    Ratio {
        number: usize,
        label: i64,
    },
}

impl Key {
    /// The power, or the number of the entry.
    pub fn word(&self) -> u32 {
        match self {
            Key::Power { power, .. } => *power as u32,
            Key::Ratio { number, .. } => *number as u32,
        }
    }
}

/// The sides of a branch that a search looks at.
#[derive(Debug, Clone, Copy, PartialEq, Eq)]
pub enum Path {
    None,
    Less,
    Other,
    Both,
}

/// Why the original panics in a search.
#[derive(Debug, Clone, Copy, PartialEq, Eq)]
pub enum Panic {
    /// A leaf of more than 64 entries equal in every dimension was searched.
    RepeatedElements,
    /// A high search visited a divisor whose ratio is not above the query's.
    NotAbove,
}

/// What a search has found so far.
#[derive(Debug, Clone, Copy, Default, PartialEq, Eq)]
pub struct Found {
    pub number: Option<usize>,
    pub singular: bool,
    /// The original panics here.
    pub panic: Option<Panic>,
}

/// A search with what follows from its words.
pub struct Query {
    search: Search,
    /// The mask of the monomial that the entries must divide.
    mask: u32,
    /// For the singular criterion, the ratio monomial to be above.
    ratio: Powers,
}

impl Query {
    pub fn new(store: &Store, search: Search) -> Self {
        let (mask, ratio) = match &search {
            Search::Contained(lm) | Search::Reducer { lm, .. } | Search::High { lm, .. } => {
                (store.map.mask(lm), Powers::one(store.variables))
            }
            Search::Low { .. } => (0, Powers::one(store.variables)),
            Search::Singular { sign, lm, .. } => (0, sign.over(lm)),
        };
        Self {
            search,
            mask,
            ratio,
        }
    }

    /// The mask of the gcd says that no entry below divides.
    pub fn is_masked_out(&self, store: &Store, gcd: &Powers) -> bool {
        match &self.search {
            Search::Low { .. } | Search::Singular { .. } => false,
            _ => store.map.mask(gcd) & !self.mask != 0,
        }
    }

    /// The sides to look at in a branch whose entries have this gcd.
    pub fn path(&self, store: &Store, key: &Key, gcd: &Powers) -> Path {
        if self.is_masked_out(store, gcd) && !store.rules.has(Mutation::MaskNeverAsked) {
            store.reached.masked_out(gcd);
            return Path::None;
        }
        match key {
            Key::Ratio { number, .. } => self.ratio_path(store, &store.entries[*number].ratio),
            Key::Power { id, power } => self.power_path(store, *id, *power),
        }
    }

    fn ratio_path(&self, store: &Store, key: &Ratio) -> Path {
        let rules = store.rules;
        let above_less = |goes: bool| if goes { Path::Both } else { Path::Other };
        match &self.search {
            Search::Contained(_) => Path::Both,
            Search::Reducer { ratio, .. } => match ratio.compare(key, rules) {
                Ordering::Less => Path::Less,
                Ordering::Equal if rules.has(Mutation::ReducerEqualRatioPrunes) => Path::Less,
                _ => Path::Both,
            },
            Search::High { ratio, .. } => above_less(ratio.compare(key, rules).is_lt()),
            Search::Low { index, .. } => match compare_indexes(key.index, *index, rules) {
                Ordering::Less => Path::Other,
                Ordering::Equal => Path::Both,
                Ordering::Greater => Path::Less,
            },
            Search::Singular { index, .. } => match compare_indexes(key.index, *index, rules) {
                Ordering::Less => Path::Other,
                Ordering::Equal => {
                    let order = key.monomial.compare(&self.ratio, rules);
                    let both = Mutation::SingularBothAtEqualKey;
                    above_less(order.is_gt() || order.is_eq() && rules.has(both))
                }
                Ordering::Greater => Path::Less,
            },
        }
    }

    /// A variable above the query's highest prunes nothing.
    fn power_path(&self, store: &Store, id: usize, key: i32) -> Path {
        let rules = store.rules;
        let monomial = match &self.search {
            Search::Contained(lm) | Search::Reducer { lm, .. } | Search::High { lm, .. } => lm,
            Search::Low { .. } | Search::Singular { .. } => return Path::Both,
        };
        let known = id <= monomial.highest_id() || rules.has(Mutation::AboveHighestPrunes);
        if !known || monomial.is_one() && rules.has(Mutation::OnePrunesNothing) {
            return Path::Both;
        }
        let power = monomial.0[id];
        if power < key || power == key && rules.has(Mutation::EqualPowerPrunes) {
            if rules.has(Mutation::LessSidePrunedBelowKey) {
                Path::Other
            } else {
                Path::Less
            }
        } else {
            Path::Both
        }
    }

    /// Looks at an entry of a leaf, and counts what that reaches.
    pub fn visit(&self, store: &Store, number: usize, found: &mut Found) -> bool {
        if let Search::Reducer { ratio, .. } = &self.search {
            store.reached.compared(&store.entries[number].ratio, ratio);
        }
        self.process(store, number, found)
    }

    /// Looks at an entry and tells whether to go on.
    pub fn process(&self, store: &Store, number: usize, found: &mut Found) -> bool {
        let entry = &store.entries[number];
        match &self.search {
            Search::Contained(monomial) => {
                if entry.lm.divides(monomial) {
                    found.number = Some(number);
                }
                found.number.is_none()
            }
            Search::Reducer { ratio, lm } => {
                let order = entry.ratio.compare(ratio, store.rules);
                if order.is_gt() || !entry.lm.divides(lm) {
                    return true;
                }
                self.take_reducer(store, number, order, found)
            }
            Search::High { ratio, lm } => {
                if entry.lm.divides(lm) {
                    let order = entry.ratio.compare(ratio, store.rules);
                    take_high(store, number, order, found);
                }
                !(found.number.is_some() && store.rules.has(Mutation::HighFirstFound))
            }
            Search::Low { index, sign } => {
                let any = store.rules.has(Mutation::LowAnyIndex);
                if (any || has_index(store, number, *index)) && entry.sign.divides(sign) {
                    let last = Mutation::LowLastOfEquals;
                    take_largest(store, number, found, store.rules.has(last));
                }
                true
            }
            Search::Singular { index, sign, .. } => {
                let order = entry.ratio.monomial.compare(&self.ratio, store.rules);
                let equal = store.rules.has(Mutation::SingularNotStrict);
                let above = order.is_gt() || order.is_eq() && equal;
                if has_index(store, number, *index) && entry.sign.divides(sign) && above {
                    found.number = Some(number);
                }
                found.number.is_none()
            }
        }
    }

    /// A regular reducer ends the search, a singular one waits for a better.
    fn take_reducer(
        &self,
        store: &Store,
        number: usize,
        order: Ordering,
        found: &mut Found,
    ) -> bool {
        let rules = store.rules;
        let singular = order.is_eq() && !rules.has(Mutation::EqualRatioIsRegular);
        if !(singular && found.singular && rules.has(Mutation::FirstSingularReducer)) {
            found.number = Some(number);
            found.singular = singular;
        }
        singular && !rules.has(Mutation::StopAtFirstSingular)
    }

    /// The payload of the answer.
    pub fn payload(&self, of: &Found) -> u32 {
        let number = of.number.map(|number| number as u32);
        match &self.search {
            Search::Contained(_) | Search::Singular { .. } => u32::from(number.is_some()),
            Search::Reducer { .. } if of.singular => found(number) + SINGULAR,
            _ => found(number),
        }
    }
}

fn has_index(store: &Store, number: usize, index: u32) -> bool {
    compare_indexes(store.entries[number].ratio.index, index, store.rules).is_eq()
}

/// A divisor whose ratio compares like this with the query's.
fn take_high(store: &Store, number: usize, order: Ordering, found: &mut Found) {
    if !order.is_gt() {
        found.panic.get_or_insert(Panic::NotAbove);
    }
    if order.is_gt() || store.rules.has(Mutation::HighCountsNotAbove) {
        let last = Mutation::HighLastOfEquals;
        take_largest(store, number, found, store.rules.has(last));
    }
}

/// Of equal ratios the first visited stays.
fn take_largest(store: &Store, number: usize, found: &mut Found, last_of_equals: bool) {
    let ratio = |number: usize| &store.entries[number].ratio;
    let better = found.number.is_none_or(|best| {
        let order = ratio(number).compare(ratio(best), store.rules);
        order.is_gt() || order.is_eq() && last_of_equals
    });
    if better {
        found.number = Some(number);
    }
}
