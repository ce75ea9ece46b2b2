//! Each operation on both sides, timed over the pairs of a sample.

use std::hint::black_box;

use divisor_index::doors;

use super::pairs::{Inputs, Pair, Sample};
use crate::{sides::Monomial, timing};

pub struct Operation {
    pub name: &'static str,
    pub inputs: Inputs,
    pub original: fn(&Sample) -> f64,
    pub port: fn(&Sample) -> f64,
}

pub const OPERATIONS: [Operation; 8] = [
    Operation {
        name: "divides",
        inputs: Inputs::HalfDivide,
        original: |s| timed(s, |p| p, |p| p.small.monomial.divides(&p.large.monomial)),
        port: |s| through(s, doors::divisor_index_monomial_divides),
    },
    Operation {
        name: "gcd",
        inputs: Inputs::HalfDivide,
        original: |s| timed(s, owned_large, |(a, p)| a.gcd(&p.small.monomial)),
        port: |s| through(s, doors::divisor_index_monomial_gcd),
    },
    Operation {
        name: "mul",
        inputs: Inputs::HalfDivide,
        original: |s| timed(s, both_owned, |(a, b)| a * b),
        port: |s| through(s, doors::divisor_index_monomial_mul),
    },
    Operation {
        name: "whole_division",
        inputs: Inputs::HalfDivide,
        original: |s| timed(s, owned_large, |(a, p)| a.whole_division(&p.small.monomial)),
        port: |s| {
            through(s, |v, a, b, out| {
                doors::divisor_index_monomial_whole_division(v, b, a, out)
            })
        },
    },
    Operation {
        name: "fraction_division",
        inputs: Inputs::HalfDivide,
        original: |s| {
            timed(
                s,
                |p| p,
                |p| p.small.monomial.fraction_division(&p.large.monomial),
            )
        },
        port: |s| through(s, doors::divisor_index_monomial_fraction_division),
    },
    Operation {
        name: "cmp",
        inputs: Inputs::HalfDivide,
        original: |s| timed(s, |p| p, |p| p.small.monomial.cmp(&p.large.monomial)),
        port: |s| through(s, doors::divisor_index_monomial_cmp),
    },
    Operation {
        name: "cmp, equal totals",
        inputs: Inputs::EqualTotals,
        original: |s| timed(s, |p| p, |p| p.small.monomial.cmp(&p.large.monomial)),
        port: |s| through(s, doors::divisor_index_monomial_cmp),
    },
    Operation {
        name: "mask",
        inputs: Inputs::HalfDivide,
        original: |s| timed(s, |p| p, |p| s.map.map(&p.large.monomial)),
        port: |s| {
            through(s, |v, _, b, out| {
                doors::divisor_index_divmask_mask(v, &s.maxima, b, out)
            })
        },
    },
];

/// The port's questions alone: both monomials are read to their ends, and the
/// second is refused there for its wrong count.
pub fn questions(sample: &Sample) -> f64 {
    through(
        sample,
        |v, a, b, out| match doors::divisor_index_monomial_eq(v, a, b, out) {
            7 => 0,
            number => panic!("{number} for a wrong count"),
        },
    )
}

fn owned_large(pair: &Pair) -> (Monomial, &Pair) {
    (pair.large.monomial.clone(), pair)
}

fn both_owned(pair: &Pair) -> (Monomial, Monomial) {
    (pair.small.monomial.clone(), pair.large.monomial.clone())
}

/// A door on the words of both monomials, which must serve them.
fn through(sample: &Sample, door: impl Fn(u32, &[u8], &[u8], &mut [u8]) -> u32) -> f64 {
    let mut out = [0; 260];
    timed(
        sample,
        |p| (&p.small.words, &p.large.words),
        |(a, b)| assert_eq!(door(sample.variables, a, b, black_box(&mut out)), 0),
    )
}

/// The time of the work alone, what it takes being made before.
fn timed<'a, T, R>(
    sample: &'a Sample,
    prepare: impl Fn(&'a Pair) -> T,
    mut work: impl FnMut(T) -> R,
) -> f64 {
    let prepared: Vec<T> = sample.pairs.iter().map(prepare).collect();
    timing::timed(|| {
        for input in prepared {
            black_box(work(black_box(input)));
        }
    })
}
