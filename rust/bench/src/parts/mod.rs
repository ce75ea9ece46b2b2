//! The tables, one after the other.

mod calls;
mod doors;
mod labels;
mod listing;
mod lists;
mod memory;
mod opening;
mod operations;
mod pairs;
mod polynomials;
mod question3;
mod reduction;

pub use self::calls::sample;
use crate::timing::Rounds;

/// One table or more on one subject.
pub struct Part {
    pub name: &'static str,
    pub run: fn(Rounds) -> Report,
}

/// What a part has found.
pub struct Report {
    /// Tables in Markdown.
    pub text: String,
    /// Plots as SVG, each with the name of its file.
    pub plots: Vec<(&'static str, String)>,
}

impl Report {
    fn new(text: impl ToString) -> Self {
        Report {
            text: text.to_string(),
            plots: vec![],
        }
    }
}

pub static PARTS: [Part; 8] = [
    Part {
        name: "calls",
        run: calls::run,
    },
    Part {
        name: "lists",
        run: lists::run,
    },
    Part {
        name: "question3",
        run: question3::run,
    },
    Part {
        name: "opening",
        run: opening::run,
    },
    Part {
        name: "listing",
        run: listing::run,
    },
    Part {
        name: "reduction",
        run: reduction::run,
    },
    Part {
        name: "memory",
        run: memory::run,
    },
    Part {
        name: "doors",
        run: doors::run,
    },
];
