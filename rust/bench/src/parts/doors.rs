//! The leaf doors, and the label map's.

use super::{
    labels::{self, Asked, LabelSample, ASKED},
    operations::{questions, Operation, OPERATIONS},
    pairs::{self, Inputs, PAIRS},
    Report,
};
use crate::{
    sides::VARIABLES,
    table::{figure, side_by_side, Table},
    timing::{by_turns, medians, Rounds, Times},
};

pub fn run(rounds: Rounds) -> Report {
    let columns = VARIABLES.map(|variables| format!("{variables} variables"));
    let mut table = Table::new(["operation"]).with_columns(columns);
    add_operations(&mut table, rounds);
    add_labels(&mut table, rounds);
    Report::new(table)
}

fn add_operations(table: &mut Table, rounds: Rounds) {
    for operation in &OPERATIONS {
        let cell = |variables| side_by_side(time(operation, variables, rounds));
        table.named_line(operation.name, VARIABLES.map(cell));
    }
    let cell = |variables| figure(time_questions(variables, rounds));
    table.named_line("the questions alone (port)", VARIABLES.map(cell));
}

fn add_labels(table: &mut Table, rounds: Rounds) {
    let samples = VARIABLES.map(labels::draw);
    let asked = [
        ("get_comparer, known value", Asked::Known),
        ("get_comparer, new value", Asked::New),
    ];
    for (name, asked) in asked {
        let cell = |sample| side_by_side(time_labels(sample, asked, rounds));
        table.named_line(name, samples.each_ref().map(cell));
    }
    let cell = |sample: &LabelSample| {
        let [time] = medians(rounds, |_| [sample.questions()]);
        figure(time / ASKED as f64)
    };
    let name = "the questions of get_comparer alone (port)";
    table.named_line(name, samples.each_ref().map(cell));
}

fn time(operation: &Operation, variables: usize, rounds: Rounds) -> Times {
    let sample = pairs::draw(variables, operation.inputs);
    let original = || (operation.original)(&sample);
    by_turns(rounds, original, || (operation.port)(&sample)).per(PAIRS)
}

fn time_questions(variables: usize, rounds: Rounds) -> f64 {
    let sample = pairs::draw(variables, Inputs::WrongCount);
    let [time] = medians(rounds, |_| [questions(&sample)]);
    time / PAIRS as f64
}

fn time_labels(sample: &LabelSample, asked: Asked, rounds: Rounds) -> Times {
    by_turns(rounds, || sample.original(asked), || sample.port(asked)).per(ASKED)
}
