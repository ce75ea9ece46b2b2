//! The bytes of an image, and those that the original asks for.

use super::Report;
use crate::{
    allocator::bytes_kept,
    sides::{Sample, Shape},
    table::{figure, grouped, Table},
    timing::Rounds,
};

pub fn run(_: Rounds) -> Report {
    let head = [
        "index",
        "entries",
        "capacity",
        "variables",
        "original, KiB",
        "image, KiB",
        "image / original",
        "original, bytes an entry",
        "image, bytes an entry",
    ];
    let mut table = Table::new(head);
    for shape in Shape::all() {
        table.line(line(shape));
    }
    Report::new(table)
}

fn line(shape: Shape) -> [String; 9] {
    let sample = Sample::draw(shape);
    let original = bytes_kept(|| sample.original(shape.entries)) as f64;
    let image = sample.port(shape.entries).image.len() as f64;
    let entries = shape.entries as f64;
    [
        shape.kind_name().into(),
        grouped(shape.entries as i64),
        grouped(shape.capacity().into()),
        shape.variables.to_string(),
        figure(original / 1024.),
        figure(image / 1024.),
        figure(image / original),
        figure(original / entries),
        figure(image / entries),
    ]
}
