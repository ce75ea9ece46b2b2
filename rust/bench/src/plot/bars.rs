//! Groups of bars over an axis that begins at 0, each group with its goal.

use super::{
    svg::{Anchor, Svg},
    Series,
};

const SIZE: (f64, f64) = (980., 448.);
const LEFT: f64 = 64.;
const RIGHT: f64 = 964.;
const TOP: f64 = 84.;
const BOTTOM: f64 = 392.;

/// Of a group's width, what its bars take.
const FILLED: f64 = 0.78;

/// Bars side by side, one for each series.
pub struct Group {
    pub name: String,
    pub goal: f64,
    pub values: Vec<f64>,
}

/// The plot of these groups. The axis has a line at each multiple of the step.
pub fn plot(title: &str, axis: &str, step: f64, groups: &[Group], series: &[Series]) -> String {
    let mut svg = Svg::new(title, SIZE.0, SIZE.1);
    svg.legend((LEFT, 58.), series);
    svg.upward_text(18., TOP.midpoint(BOTTOM), axis);
    let values = groups.iter().flat_map(|group| &group.values);
    let highest = values.copied().fold(step, f64::max);
    let scale = Scale {
        step,
        steps: (highest / step).ceil(),
    };
    scale.draw(&mut svg);
    let width = (RIGHT - LEFT) / groups.len() as f64;
    for (group, at) in groups.iter().zip(0..) {
        let x = LEFT + width * f64::from(at);
        draw_group(&mut svg, scale, group, (x, width), series);
    }
    svg.finish()
}

#[derive(Clone, Copy)]
struct Scale {
    step: f64,
    steps: f64,
}

impl Scale {
    fn place(self, value: f64) -> f64 {
        BOTTOM - (BOTTOM - TOP) * value / (self.steps * self.step)
    }

    fn draw(self, svg: &mut Svg) {
        for at in 0..=self.steps as u32 {
            let value = f64::from(at) * self.step;
            let y = self.place(value);
            svg.grid_line((LEFT, y), (RIGHT, y));
            svg.text(LEFT - 8., y + 5., Anchor::End, &value.to_string());
        }
    }
}

fn draw_group(
    svg: &mut Svg,
    scale: Scale,
    group: &Group,
    (x, width): (f64, f64),
    series: &[Series],
) {
    let bar = width * FILLED / series.len() as f64;
    let start = x + width * (1. - FILLED) / 2.;
    for ((value, series), at) in group.values.iter().zip(series).zip(0..) {
        let y = scale.place(*value);
        let corner = (start + bar * f64::from(at), y);
        svg.bar(series, corner, (bar - 2., BOTTOM - y));
    }
    let goal = scale.place(group.goal);
    svg.goal_line((x + 2., goal), (x + width - 2., goal));
    let middle = x + width / 2.;
    svg.text(middle, BOTTOM + 22., Anchor::Middle, &group.name);
    let label = format!("goal {:.1}", group.goal);
    svg.goal_text(middle, BOTTOM + 41., Anchor::Middle, &label);
}
