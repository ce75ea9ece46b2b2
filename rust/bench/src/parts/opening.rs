//! An opening by itself, and with all entries inserted after it.

use divisor_index::{Config, MonomialIndex, RatioMonomialIndex};
use harness::model::Kind;

use super::Report;
use crate::{
    sides::{drawing::HIGHEST_POWER, Call, Original, Port, Sample, Shape},
    table::{figure, grouped, side_by_side, Table},
    timing::{medians, timed, Rounds, Times},
};

pub fn run(rounds: Rounds) -> Report {
    let head = [
        "index",
        "entries",
        "capacity",
        "variables",
        "opening, µs",
        "in new memory (port), µs",
        "opening and all inserts, µs",
    ];
    let mut table = Table::new(head);
    for shape in Shape::all() {
        table.line(line(shape, rounds));
    }
    Report::new(table)
}

fn line(shape: Shape, rounds: Rounds) -> [String; 7] {
    let sample = Sample::draw(shape);
    let list = Call::insert(shape.kind).list(&sample.entries);
    let mut image = vec![0; Port::length(shape)];
    let times = medians(rounds, |_| {
        let mut original = Original::open(shape);
        let mut port = Port::open(shape);
        [
            timed(|| Original::open(shape)),
            timed(|| Port::open_in(shape, &mut image)),
            timed(|| open_owned(shape)),
            original.insert(&sample.entries),
            port.run(&list),
        ]
    });
    let [original, port, new, original_inserts, port_inserts] = times.map(|time| time / 1e3);
    let built = Times {
        original: original + original_inserts,
        port: port + port_inserts,
    };
    [
        shape.kind_name().into(),
        grouped(shape.entries as i64),
        grouped(shape.capacity().into()),
        shape.variables.to_string(),
        side_by_side(Times { original, port }),
        figure(new),
        side_by_side(built),
    ]
}

/// By the crate for the solver, in memory that is asked for.
fn open_owned(shape: Shape) -> Vec<u8> {
    let maxima = vec![HIGHEST_POWER as u32; shape.variables];
    let config = Config::new(shape.variables as u32, shape.capacity());
    let config = config.and_then(|config| config.with_maxima(&maxima));
    let config = config.expect("a configuration");
    match shape.kind {
        Kind::Monomial => MonomialIndex::open(&config).into_image(),
        Kind::Ratio => RatioMonomialIndex::open(&config).into_image(),
    }
}
