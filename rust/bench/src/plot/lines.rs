//! Panels of lines over places side by side, in a logarithmic scale.

use super::{
    svg::{Anchor, Svg},
    Series,
};

const LEFT: f64 = 84.;
const TOP: f64 = 100.;
const PANEL: (f64, f64) = (280., 240.);
const GAP: (f64, f64) = (20., 66.);

/// Lines of one kind of index or size.
pub struct Panel {
    pub title: String,
    /// One for each series, over the places.
    pub lines: Vec<Vec<f64>>,
}

/// What all panels share.
pub struct Plot<'a> {
    pub title: &'a str,
    pub axis: &'a str,
    /// Under each place. The last one stands apart, and no line leads to it.
    pub places: &'a [&'a str],
    pub under: &'a str,
    pub series: &'a [Series],
}

impl Plot<'_> {
    /// Rows of so many panels.
    pub fn draw(&self, columns: usize, panels: &[Panel]) -> String {
        let rows = panels.len().div_ceil(columns);
        let width = LEFT + columns as f64 * (PANEL.0 + GAP.0);
        let height = TOP + rows as f64 * (PANEL.1 + GAP.1);
        let mut svg = Svg::new(self.title, width, height);
        svg.legend((LEFT, 58.), self.series);
        svg.upward_text(18., (TOP + height - GAP.1) / 2., self.axis);
        let scale = Scale::new(panels);
        for (panel, at) in panels.iter().zip(0..) {
            let x = LEFT + (PANEL.0 + GAP.0) * (at % columns) as f64;
            let y = TOP + (PANEL.1 + GAP.1) * (at / columns) as f64;
            let at_left = at % columns == 0;
            scale.draw_steps(&mut svg, (x, y), at_left);
            self.draw_panel(&mut svg, scale, panel, (x, y));
        }
        svg.finish()
    }

    fn draw_panel(&self, svg: &mut Svg, scale: Scale, panel: &Panel, (x, y): (f64, f64)) {
        svg.text(x + PANEL.0 / 2., y - 8., Anchor::Middle, &panel.title);
        self.draw_places(svg, (x, y + PANEL.1));
        for (line, series) in panel.lines.iter().zip(self.series) {
            let values = line.iter().enumerate();
            let points = values.map(|(at, value)| (x + self.place(at), y + scale.place(*value)));
            draw_line(svg, series, &points.collect::<Vec<_>>());
        }
    }

    fn draw_places(&self, svg: &mut Svg, (x, y): (f64, f64)) {
        for (place, at) in self.places.iter().zip(0..) {
            svg.text(x + self.place(at), y + 18., Anchor::Middle, place);
        }
        let middle = self.place(0).midpoint(self.place(self.places.len() - 2));
        svg.text(x + middle, y + 36., Anchor::Middle, self.under);
    }

    /// How far right in the panel.
    fn place(&self, at: usize) -> f64 {
        PANEL.0 * (at as f64 + 0.5) / self.places.len() as f64
    }
}

/// A dot at each point, and a line to all but the last. What was not measured is
/// left out.
fn draw_line(svg: &mut Svg, series: &Series, points: &[(f64, f64)]) {
    let (apart, along) = points.split_last().expect("a value for each place");
    let is_measured = |point: &&(f64, f64)| point.1.is_finite();
    let along: Vec<_> = along.iter().filter(is_measured).copied().collect();
    svg.path(series, &along);
    for point in along.iter().chain([apart]) {
        svg.dot(series, *point);
    }
}

/// Powers of ten.
#[derive(Clone, Copy)]
struct Scale {
    lowest: i32,
    highest: i32,
}

impl Scale {
    fn new(panels: &[Panel]) -> Self {
        let values = || panels.iter().flat_map(|panel| panel.lines.iter().flatten());
        let least = values().copied().fold(f64::INFINITY, f64::min);
        let greatest = values().copied().fold(0., f64::max);
        Scale {
            lowest: least.log10().floor() as i32,
            highest: greatest.log10().ceil() as i32,
        }
    }

    /// How far down in the panel.
    fn place(self, value: f64) -> f64 {
        let span = f64::from(self.highest - self.lowest);
        PANEL.1 * (f64::from(self.highest) - value.log10()) / span
    }

    fn draw_steps(self, svg: &mut Svg, (x, y): (f64, f64), with_numbers: bool) {
        for exponent in self.lowest..=self.highest {
            let value = 10f64.powi(exponent);
            let y = y + self.place(value);
            svg.grid_line((x, y), (x + PANEL.0, y));
            if with_numbers {
                svg.text(x - 8., y + 5., Anchor::End, &value.to_string());
            }
        }
    }
}
