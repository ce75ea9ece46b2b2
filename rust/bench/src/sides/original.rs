//! The original, on its own values, which are made before the clock starts.

use std::hint::black_box;

use harness::{
    model::{powers::Powers, state::Entry, Kind},
    words::{found, SINGULAR},
};
use original::{
    oracle::{self, Basis, Syzygies},
    polynomial::monomial_ordering::Grevlex,
};

use super::{drawing::HIGHEST_POWER, Call, Shape};
use crate::timing::timed;

pub type Monomial = oracle::Monomial<Grevlex>;

pub fn monomial(powers: &Powers) -> Monomial {
    oracle::monomial(&powers.vars().collect::<Vec<_>>())
}

pub enum Original {
    Monomial(Syzygies<Grevlex>),
    Ratio(Basis<Grevlex>),
}

impl Original {
    pub fn open(shape: Shape) -> Self {
        let maxima = vec![HIGHEST_POWER; shape.variables];
        match shape.kind {
            Kind::Monomial => Original::Monomial(Syzygies::new(&maxima)),
            Kind::Ratio => Original::Ratio(Basis::new(&maxima)),
        }
    }

    /// Without the tracking of maxima, which is the oracle's own.
    pub fn insert(&mut self, entries: &[Entry]) -> f64 {
        let lms = entries.iter().map(|entry| monomial(&entry.lm));
        match self {
            Original::Monomial(index) => {
                let values: Vec<_> = lms.collect();
                timed(|| values.into_iter().for_each(|lm| index.insert_untracked(lm)))
            }
            Original::Ratio(index) => {
                let signs = entries
                    .iter()
                    .map(|entry| (entry.index, monomial(&entry.sign)));
                let values: Vec<_> = signs.zip(lms).collect();
                timed(|| {
                    for ((idx, sign), lm) in values {
                        index.insert_untracked(idx, sign, lm);
                    }
                })
            }
        }
    }

    /// The time of these queries.
    pub fn ask(&self, call: Call, queries: &[Entry]) -> f64 {
        let values: Vec<_> = queries.iter().map(|query| values(call, query)).collect();
        let lms: Vec<_> = queries.iter().map(|query| monomial(&query.lm)).collect();
        timed(|| {
            for ((idx, value), lm) in values.into_iter().zip(&lms) {
                black_box(self.answer(call, idx, value, lm));
            }
        })
    }

    /// The answers as payloads.
    pub fn answers(&self, call: Call, queries: &[Entry]) -> Vec<u32> {
        let answer = |query| {
            let (idx, value) = values(call, query);
            self.answer(call, idx, value, &monomial(&query.lm))
        };
        queries.iter().map(answer).collect()
    }

    /// What the original takes by value is the signature monomial or the ratio.
    fn answer(&self, call: Call, idx: u32, value: Monomial, lm: &Monomial) -> u32 {
        match self {
            Original::Monomial(index) => index.contains_divisor(lm).into(),
            Original::Ratio(index) => match call {
                Call::Reducer => reducer(index.find_a_reducer(idx, value, lm)),
                Call::High => found(index.find_high_base_divisor(idx, value, lm)),
                Call::Low => found(index.find_low_base_divisor(idx, value)),
                _ => index.test_singular_criterion(idx, value, lm).into(),
            },
        }
    }
}

fn reducer(answer: Option<(u32, bool)>) -> u32 {
    match answer {
        Some((number, true)) => found(Some(number)) + SINGULAR,
        answer => found(answer.map(|(number, _)| number)),
    }
}

/// The index of a query, and what is asked by value.
fn values(call: Call, query: &Entry) -> (u32, Monomial) {
    let value = match call {
        Call::Reducer | Call::High => &query.ratio().monomial,
        Call::Low | Call::Singular => &query.sign,
        _ => &Powers::one(0),
    };
    (query.index, monomial(value))
}
