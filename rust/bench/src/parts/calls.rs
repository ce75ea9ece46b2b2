//! Each call in a long list, question 3 not counted.

use std::time::{Duration, Instant};

use super::Report;
use crate::{
    plot::{
        bars::{self, Group},
        Series, COLOURS,
    },
    sides::{Call, Sample, Shape, ENTRIES, VARIABLES},
    table::{against_goal, figure, grouped, Table},
    timing::{by_turns, Rounds, Times},
};

const QUERIES: usize = 1000;

/// How long a profiler can sample.
const SAMPLED: Duration = Duration::from_secs(5);

/// One call at one shape.
struct Measured {
    /// A call.
    times: Times,
    /// Of a hundred searches, those with another answer than none or no.
    found: Option<f64>,
}

pub fn run(rounds: Rounds) -> Report {
    let measure_row = |(call, entries): (Call, _)| {
        let shapes = Shape::row(call.kind(), entries);
        let row = shapes.map(|shape| measure(call, shape, rounds)).collect();
        (call, entries, row)
    };
    let rows: Vec<Row> = rows().map(measure_row).collect();
    let columns = VARIABLES.map(|variables| format!("{variables} variables"));
    let table = Table::new(["call", "entries"]).with_columns(columns);
    let mut table = table.with_columns(["found".into()]);
    for row in &rows {
        table.line(line(row));
    }
    Report {
        text: table.to_string(),
        plots: vec![("calls.svg", plot(&rows))],
    }
}

/// A call, a number of entries, and a measurement for each number of variables.
type Row = (Call, usize, Vec<Measured>);

/// A group of bars for each call, and in it the rows one after the other.
fn plot(rows: &[Row]) -> String {
    let of_call = |call: Call| {
        let rows = rows.iter().filter(move |row| row.0 == call);
        rows.flat_map(|row| row.2.iter().map(|one| one.times.ratio()))
    };
    let groups = Call::ALL.map(|call| Group {
        name: call.name().into(),
        goal: call.goal(),
        values: of_call(call).collect(),
    });
    let name = |entries, variables| format!("N {}, V {variables}", grouped(entries as i64));
    let columns = VARIABLES.into_iter().zip(COLOURS);
    let few = columns
        .clone()
        .map(|(v, colour)| Series::new(name(ENTRIES[0], v), colour).paler());
    let many = columns.map(|(v, colour)| Series::new(name(ENTRIES[1], v), colour));
    bars::plot(
        "A call in a long list: time of the port / time of the original (N entries held, V variables)",
        "port / original",
        0.25,
        &groups,
        &few.chain(many).collect::<Vec<_>>(),
    )
}

/// Call and number of entries of each line.
pub fn rows() -> impl Iterator<Item = (Call, usize)> {
    let with_entries = |call| ENTRIES.map(|entries| (call, entries));
    Call::ALL.into_iter().flat_map(with_entries)
}

fn line((call, entries, row): &Row) -> Vec<String> {
    let mut line = vec![call.name().into(), grouped(*entries as i64)];
    line.extend(row.iter().map(|one| against_goal(one.times, call.goal())));
    let found = row.iter().filter_map(|one| one.found);
    let found: Vec<_> = found.map(|found| format!("{found:.0} %")).collect();
    line.push(found.join(", "));
    line
}

fn measure(call: Call, shape: Shape, rounds: Rounds) -> Measured {
    let sample = Sample::draw(shape);
    if call.is_insert() {
        measure_inserts(call, &sample, rounds)
    } else {
        measure_searches(call, sample, rounds)
    }
}

/// The first half of the entries is held, and the others are inserted.
fn measure_inserts(call: Call, sample: &Sample, rounds: Rounds) -> Measured {
    let half = sample.shape.entries / 2;
    let late = &sample.entries[half..];
    let (list, port) = (call.list(late), sample.port(half));
    let times = by_turns(
        rounds,
        || sample.original(half).insert(late),
        || port.clone().run_calls(&list),
    );
    Measured {
        times: times.per(late.len()),
        found: None,
    }
}

/// Each side has had the queries once before, so leaves are split.
fn measure_searches(call: Call, mut sample: Sample, rounds: Rounds) -> Measured {
    let held = sample.shape.entries;
    let queries = sample.queries(call, QUERIES);
    let (mut port, original) = (sample.port(held), sample.original(held));
    let answers = original.answers(call, &queries);
    assert_eq!(port.ask(call, &queries), answers, "both sides answer alike");
    let list = call.list(&queries);
    let times = by_turns(
        rounds,
        || {
            sample.visit(&original);
            original.ask(call, &queries)
        },
        || port.run_calls(&list),
    );
    let found = answers.iter().filter(|answer| **answer != 0).count();
    Measured {
        times: times.per(QUERIES),
        found: Some(found as f64 / QUERIES as f64 * 100.),
    }
}

/// Makes one call over and over again on the port, for a profiler, and prints what
/// it takes. Question 3 is asked too, once for each list.
pub fn sample(call: Call, entries: usize, variables: usize) {
    let shape = Shape {
        kind: call.kind(),
        variables,
        entries,
    };
    let mut sample = Sample::draw(shape);
    let (held, calls) = if call.is_insert() {
        (entries / 2, sample.entries[entries / 2..].to_vec())
    } else {
        (entries, sample.queries(call, 20 * QUERIES))
    };
    let (list, mut port) = (call.list(&calls), sample.port(held));
    if !call.is_insert() {
        port.run(&list);
    }
    let (start, mut times) = (Instant::now(), vec![]);
    while start.elapsed() < SAMPLED {
        times.push(port.clone().run(&list));
    }
    let time = times.iter().sum::<f64>() / times.len() as f64;
    println!("{} ns a call", figure(time / calls.len() as f64));
}
