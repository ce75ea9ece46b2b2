//! Plots as plain SVG.

pub mod bars;
pub mod lines;
mod svg;

/// What a colour stands for.
#[derive(Clone)]
pub struct Series {
    pub name: String,
    pub colour: &'static str,
    /// From 0 to 1.
    pub opacity: f64,
}

impl Series {
    pub fn new(name: impl Into<String>, colour: &'static str) -> Self {
        Series {
            name: name.into(),
            colour,
            opacity: 1.,
        }
    }

    /// A paler one of the same colour.
    pub fn paler(self) -> Self {
        Series {
            opacity: 0.5,
            ..self
        }
    }
}

/// Colours that can be told apart on white and on black.
pub const COLOURS: [&str; 7] = [
    "#4e8ac8", "#e8892b", "#4aa457", "#e15759", "#a978c0", "#a5795f", "#25a9a4",
];
