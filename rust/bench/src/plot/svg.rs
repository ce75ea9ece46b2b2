//! The marks of a plot.

use std::fmt::{Display, Write};

use super::Series;

/// Paper and ink follow the reader's light or dark; the paper is always there, so
/// that the ink is seen on any page.
const STYLE: &str = "\
    .paper { fill: #ffffff } .ink { fill: #1f2328 } .grid { stroke: #d1d9e0 }\n\
    .goal { stroke: #cf222e } .goal-ink { fill: #cf222e }\n\
    @media (prefers-color-scheme: dark) {\n\
    .paper { fill: #0d1117 } .ink { fill: #e6edf3 } .grid { stroke: #3d444d }\n\
    .goal { stroke: #ff7b72 } .goal-ink { fill: #ff7b72 }\n\
    }\n";

const TEXT: f64 = 14.;

/// About that of a letter.
const WIDTH: f64 = 7.5;

/// Where a text begins, ends or has its middle.
#[derive(Clone, Copy)]
pub enum Anchor {
    Start,
    Middle,
    End,
}

impl Anchor {
    fn name(self) -> &'static str {
        match self {
            Anchor::Start => "start",
            Anchor::Middle => "middle",
            Anchor::End => "end",
        }
    }
}

pub struct Svg {
    size: (f64, f64),
    title: String,
    body: String,
}

impl Svg {
    pub fn new(title: &str, width: f64, height: f64) -> Self {
        let mut svg = Svg {
            size: (width, height),
            title: escaped(title),
            body: String::new(),
        };
        svg.add(format_args!(
            r#"<rect class="paper" width="{width}" height="{height}"/>"#
        ));
        svg.add(format_args!(
            r#"<text class="ink" x="16" y="28" font-size="18" font-weight="bold">{}</text>"#,
            escaped(title)
        ));
        svg
    }

    fn add(&mut self, element: impl Display) {
        writeln!(self.body, "{element}").expect("a string takes all text");
    }

    pub fn text(&mut self, x: f64, y: f64, anchor: Anchor, text: &str) {
        self.text_of("ink", x, y, anchor, text);
    }

    pub fn goal_text(&mut self, x: f64, y: f64, anchor: Anchor, text: &str) {
        self.text_of("goal-ink", x, y, anchor, text);
    }

    fn text_of(&mut self, class: &str, x: f64, y: f64, anchor: Anchor, text: &str) {
        let (anchor, text) = (anchor.name(), escaped(text));
        self.add(format_args!(
            r#"<text class="{class}" x="{x:.1}" y="{y:.1}" text-anchor="{anchor}">{text}</text>"#
        ));
    }

    /// A text that runs upwards, its middle at this place.
    pub fn upward_text(&mut self, x: f64, y: f64, text: &str) {
        let text = escaped(text);
        self.add(format_args!(
            r#"<text class="ink" transform="translate({x:.1} {y:.1}) rotate(-90)" text-anchor="middle">{text}</text>"#
        ));
    }

    pub fn grid_line(&mut self, from: (f64, f64), to: (f64, f64)) {
        self.line_of(r#"class="grid""#, from, to);
    }

    pub fn goal_line(&mut self, from: (f64, f64), to: (f64, f64)) {
        self.line_of(
            r#"class="goal" stroke-width="2" stroke-dasharray="7 4""#,
            from,
            to,
        );
    }

    fn line_of(&mut self, look: &str, (x1, y1): (f64, f64), (x2, y2): (f64, f64)) {
        self.add(format_args!(
            r#"<line {look} x1="{x1:.1}" y1="{y1:.1}" x2="{x2:.1}" y2="{y2:.1}"/>"#
        ));
    }

    /// A bar, given by its upper left corner and its size.
    pub fn bar(&mut self, series: &Series, (x, y): (f64, f64), (width, height): (f64, f64)) {
        let (colour, opacity) = (series.colour, series.opacity);
        self.add(format_args!(
            r#"<rect fill="{colour}" opacity="{opacity}" x="{x:.1}" y="{y:.1}" width="{width:.1}" height="{height:.1}"/>"#
        ));
    }

    pub fn path(&mut self, series: &Series, points: &[(f64, f64)]) {
        let points = points.iter().map(|(x, y)| format!("{x:.1},{y:.1}"));
        let points = points.collect::<Vec<_>>().join(" ");
        let colour = series.colour;
        self.add(format_args!(
            r#"<polyline fill="none" stroke="{colour}" stroke-width="2.5" points="{points}"/>"#
        ));
    }

    pub fn dot(&mut self, series: &Series, (x, y): (f64, f64)) {
        let colour = series.colour;
        self.add(format_args!(
            r#"<circle fill="{colour}" cx="{x:.1}" cy="{y:.1}" r="4.5"/>"#
        ));
    }

    /// The series side by side from this place on.
    pub fn legend(&mut self, (mut x, y): (f64, f64), series: &[Series]) {
        for series in series {
            self.bar(series, (x, y - 11.), (14., 12.));
            self.text(x + 20., y, Anchor::Start, &series.name);
            x += 46. + WIDTH * series.name.len() as f64;
        }
    }

    pub fn finish(self) -> String {
        let Svg {
            size: (width, height),
            title,
            body,
        } = self;
        format!(
            "<svg xmlns=\"http://www.w3.org/2000/svg\" viewBox=\"0 0 {width} {height}\" \
             width=\"{width}\" height=\"{height}\" role=\"img\" \
             font-family=\"Helvetica, Arial, sans-serif\" font-size=\"{TEXT}\">\n\
             <title>{title}</title>\n<style>\n{STYLE}</style>\n{body}</svg>\n"
        )
    }
}

fn escaped(text: &str) -> String {
    text.replace('&', "&amp;").replace('<', "&lt;")
}
