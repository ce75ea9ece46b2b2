//! The check of an index image, beside a sum of the image's words, and the
//! deepest trees beside balanced ones.

use std::hint::black_box;

use divisor_index::image::check;
use harness::{
    images::{
        chains::{full, Form},
        samples::bytes,
    },
    model::{image::encode, Kind},
    words::MAX_CAPACITY,
};

use super::Report;
use crate::{
    sides::{Sample, Shape, KINDS},
    table::{figure, grouped, Table},
    timing::{medians, timed, Rounds},
};

pub fn run(rounds: Rounds) -> Report {
    Report::new(format!("{}\n{}", images(rounds), trees(rounds)))
}

fn images(rounds: Rounds) -> Table {
    let head = [
        "index",
        "entries",
        "variables",
        "words",
        "sum of the words, µs",
        "question 3, µs",
        "a word, ns",
        "an entry, ns",
    ];
    let mut table = Table::new(head);
    for shape in Shape::all() {
        let image = Sample::draw(shape).port(shape.entries).image;
        table.line(image_line(shape, &image, rounds));
    }
    table
}

fn image_line(shape: Shape, image: &[u8], rounds: Rounds) -> [String; 8] {
    let words = image.len() / 4;
    let [sum, check] = medians(rounds, |_| [add_up(image), judge(image)]);
    [
        shape.kind_name().into(),
        grouped(shape.entries as i64),
        shape.variables.to_string(),
        grouped(words as i64),
        figure(sum / 1e3),
        figure(check / 1e3),
        figure(check / words as f64),
        figure(check / shape.entries as f64),
    ]
}

/// Full images of capacity 4,096 with one entry a leaf.
fn trees(rounds: Rounds) -> Table {
    let head = [
        "chain of 4,096 levels, leaves on",
        "index",
        "variables",
        "chain, µs",
        "balanced, µs",
        "chain / balanced",
    ];
    let mut table = Table::new(head);
    let shapes = KINDS.into_iter().flat_map(|kind| [(kind, 1), (kind, 8)]);
    let forms = [Form::LessLeaves, Form::OtherLeaves];
    for ((kind, variables), form) in shapes.flat_map(|shape| forms.map(|form| (shape, form))) {
        table.line(tree_line(kind, variables, form, rounds));
    }
    table
}

fn tree_line(kind: Kind, variables: usize, form: Form, rounds: Rounds) -> [String; 6] {
    let image = |form| bytes(&encode(&full(kind, variables, MAX_CAPACITY, form)));
    let (chain, balanced) = (image(form), image(Form::Balanced));
    let [chain, balanced] = medians(rounds, |_| [judge(&chain), judge(&balanced)]);
    let side = match form {
        Form::LessLeaves => "the less side",
        _ => "the other side",
    };
    [
        side.into(),
        format!("{kind:?}").to_lowercase(),
        variables.to_string(),
        figure(chain / 1e3),
        figure(balanced / 1e3),
        figure(chain / balanced),
    ]
}

fn add_up(image: &[u8]) -> f64 {
    timed(|| {
        let (words, _) = black_box(image).as_chunks();
        let words = words.iter().map(|word| u32::from_le_bytes(*word));
        words.fold(0, u32::wrapping_add)
    })
}

fn judge(image: &[u8]) -> f64 {
    let mut checked = Ok(());
    let time = timed(|| checked = check(black_box(image)));
    assert_eq!(checked, Ok(()));
    time
}
