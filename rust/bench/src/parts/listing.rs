//! The listing of a monomial index.

use std::hint::black_box;

use divisor_index::doors;
use harness::{
    images::samples::bytes,
    model::{powers::Powers, Kind},
    words::monomial_words,
};
use original::oracle;

use super::Report;
use crate::{
    sides::{monomial, Original, Port, Sample, Shape},
    table::{figure, grouped, side_by_side, Table},
    timing::{medians, timed, Rounds, Times},
};

pub fn run(rounds: Rounds) -> Report {
    let head = [
        "entries",
        "variables",
        "listing, µs",
        "of the original, copying alone, µs",
        "of the port, question 3 alone, µs",
    ];
    let mut table = Table::new(head);
    for shape in Shape::of_kind(Kind::Monomial) {
        table.line(line(shape, rounds));
    }
    Report::new(table)
}

fn line(shape: Shape, rounds: Rounds) -> [String; 5] {
    let sample = Sample::draw(shape);
    let lms = sample.entries.iter().map(|entry| &entry.lm);
    let lms: Vec<_> = lms.collect();
    let mut listing = vec![0; lms.iter().map(|lm| length(lm)).sum()];
    let mut port = sample.port(shape.entries);
    let times = medians(rounds, |_| {
        [
            to_vec(sample.original(shape.entries)),
            copy(&lms),
            list(&port, &mut listing),
            port.run(&[]),
        ]
    });
    let [original, copying, port, question_3] = times.map(|time| time / 1e3);
    [
        grouped(shape.entries as i64),
        shape.variables.to_string(),
        side_by_side(Times { original, port }),
        figure(copying),
        figure(question_3),
    ]
}

/// Bytes of a monomial's words.
fn length(lm: &Powers) -> usize {
    bytes(&monomial_words(lm.vars())).len()
}

fn list(port: &Port, listing: &mut [u8]) -> f64 {
    let mut number = 0;
    let time = timed(|| number = doors::divisor_index_list(black_box(&port.image), listing));
    assert_eq!(number, 0, "a listing");
    time
}

/// The oracle copies the variables of each entry out of the original's `to_vec`.
fn to_vec(original: Original) -> f64 {
    match original {
        Original::Monomial(index) => timed(|| index.to_vec()),
        Original::Ratio(_) => panic!("a ratio index has no listing"),
    }
}

/// That copying by itself, and the giving back of the entries after it.
fn copy(lms: &[&Powers]) -> f64 {
    let monomials: Vec<_> = lms.iter().map(|lm| monomial(lm)).collect();
    timed(move || {
        let variables = |lm| {
            let variables = oracle::variables(lm);
            variables.map(|(id, power)| (*id, *power)).collect()
        };
        let copied: Vec<Vec<_>> = monomials.iter().map(variables).collect();
        copied
    })
}
