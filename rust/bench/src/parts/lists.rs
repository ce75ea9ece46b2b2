//! What a call costs in lists of 1, 10 and 100, question 3 with it.

use harness::model::state::Entry;

use super::{calls::rows, Report};
use crate::{
    plot::{
        lines::{Panel, Plot},
        Series, COLOURS,
    },
    sides::{Call, Sample, Shape, ENTRIES, VARIABLES},
    table::{figure, grouped, Table},
    timing::{medians, Rounds},
};

const LENGTHS: [usize; 3] = [1, 10, 100];

/// The calls of the longest list.
const CALLS: usize = 100;

/// Lists are cut from these, in each round at another place.
const QUERIES: usize = 10 * CALLS;

/// Nanoseconds a call.
struct Measured {
    original: f64,
    /// By length of the list.
    port: [f64; 3],
}

impl Measured {
    /// By length, and then the original.
    fn microseconds(&self) -> Vec<f64> {
        let times = self.port.iter().chain([&self.original]);
        times.map(|time| time / 1e3).collect()
    }
}

pub fn run(rounds: Rounds) -> Report {
    let shapes = |(call, entries): (Call, _)| {
        let shapes = Shape::row(call.kind(), entries);
        shapes.map(move |shape| (call, shape))
    };
    let all = rows().flat_map(shapes);
    let all: Vec<Row> = all
        .map(|(call, shape)| (call, shape, measure(call, shape, rounds)))
        .collect();
    let head = ["call", "entries", "variables", "original, µs"];
    let port = LENGTHS.map(|length| format!("list of {length}, µs"));
    let ratio = LENGTHS.map(|length| format!("port / original, {length}"));
    let mut table = Table::new(head).with_columns(port).with_columns(ratio);
    for row in &all {
        table.line(line(row));
    }
    Report {
        text: table.to_string(),
        plots: vec![("lists.svg", plot(&all))],
    }
}

type Row = (Call, Shape, Measured);

/// A panel for each number of entries and of variables, a line for each call.
fn plot(rows: &[Row]) -> String {
    let panel = |(entries, variables)| {
        let is_here = move |row: &&Row| row.1.entries == entries && row.1.variables == variables;
        let here = rows.iter().filter(is_here);
        Panel {
            title: format!("{} entries, {variables} variables", grouped(entries as i64)),
            lines: here.map(|row| row.2.microseconds()).collect(),
        }
    };
    let sizes = ENTRIES.into_iter().flat_map(|n| VARIABLES.map(|v| (n, v)));
    let panels: Vec<_> = sizes.map(panel).collect();
    let series = Call::ALL.into_iter().zip(COLOURS);
    let series: Vec<_> = series
        .map(|(call, colour)| Series::new(call.name(), colour))
        .collect();
    let plot = Plot {
        title: "What a call costs by the length of its list, question 3 with it",
        axis: "µs a call, logarithmic",
        places: &["1", "10", "100", "original"],
        under: "calls in a list of the port",
        series: &series,
    };
    plot.draw(VARIABLES.len(), &panels)
}

fn line((call, shape, measured): &Row) -> Vec<String> {
    let Measured { original, port } = *measured;
    let mut line = vec![
        call.name().into(),
        grouped(shape.entries as i64),
        shape.variables.to_string(),
        figure(original / 1e3),
    ];
    line.extend(port.map(|port| figure(port / 1e3)));
    line.extend(port.map(|port| figure(port / original)));
    line
}

fn measure(call: Call, shape: Shape, rounds: Rounds) -> Measured {
    let sample = Sample::draw(shape);
    let [original, port @ ..] = if call.is_insert() {
        measure_inserts(call, &sample, rounds)
    } else {
        measure_searches(call, sample, rounds)
    };
    Measured { original, port }
}

/// The last entries, into an index of the others.
fn measure_inserts(call: Call, sample: &Sample, rounds: Rounds) -> [f64; 4] {
    let held = sample.shape.entries - CALLS;
    let late = &sample.entries[held..];
    let (lists, port) = (Lists::new(call, late), sample.port(held));
    let fresh = |list: &[u8]| {
        let mut port = port.clone();
        port.run(&[]);
        port.run(list)
    };
    medians(rounds, |round| {
        let original = sample.original(held).insert(late);
        lists.times(round, original, fresh)
    })
}

fn measure_searches(call: Call, mut sample: Sample, rounds: Rounds) -> [f64; 4] {
    let held = sample.shape.entries;
    let queries = sample.queries(call, QUERIES);
    let (original, mut port) = (sample.original(held), sample.port(held));
    let lists = Lists::new(call, &queries);
    let parts: Vec<_> = queries.chunks(CALLS).collect();
    medians(rounds, |round| {
        sample.visit(&original);
        let original = original.ask(call, parts[round % parts.len()]);
        port.run(&[]);
        lists.times(round, original, |list| port.run(list))
    })
}

/// The same calls in lists of each length.
struct Lists([Vec<Vec<u8>>; 3]);

impl Lists {
    fn new(call: Call, calls: &[Entry]) -> Self {
        let cut = |length| calls.chunks(length).map(|part| call.list(part)).collect();
        Lists(LENGTHS.map(cut))
    }

    /// The time of one call: of the original, and in one list of each length, each
    /// round in another.
    fn times(&self, round: usize, original: f64, mut run: impl FnMut(&[u8]) -> f64) -> [f64; 4] {
        let mut port = |at: usize| {
            let lists = &self.0[at];
            run(&lists[round % lists.len()]) / LENGTHS[at] as f64
        };
        [original / CALLS as f64, port(0), port(1), port(2)]
    }
}
