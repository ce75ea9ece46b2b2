//! Tables in Markdown, and figures in them.

use std::fmt::{self, Display};

use crate::timing::Times;

/// Lines under a head, as Markdown.
pub struct Table {
    head: Vec<String>,
    lines: Vec<Vec<String>>,
}

impl Table {
    pub fn new<const N: usize>(head: [&str; N]) -> Self {
        Table {
            head: head.map(String::from).to_vec(),
            lines: vec![],
        }
    }

    /// A head with one more column for each of these.
    pub fn with_columns(mut self, columns: impl IntoIterator<Item = String>) -> Self {
        self.head.extend(columns);
        self
    }

    pub fn line(&mut self, line: impl IntoIterator<Item = String>) {
        let line: Vec<_> = line.into_iter().collect();
        assert_eq!(line.len(), self.head.len(), "a cell a column");
        self.lines.push(line);
    }

    /// A line of a name and cells behind it.
    pub fn named_line(&mut self, name: &str, cells: impl IntoIterator<Item = String>) {
        self.line([name.into()].into_iter().chain(cells));
    }
}

impl Display for Table {
    fn fmt(&self, f: &mut fmt::Formatter) -> fmt::Result {
        writeln!(f, "| {} |", self.head.join(" | "))?;
        writeln!(f, "|{}", "---|".repeat(self.head.len()))?;
        let mut lines = self.lines.iter();
        lines.try_for_each(|line| writeln!(f, "| {} |", line.join(" | ")))
    }
}

/// Three digits that count, and more in front of the point. A figure that is no
/// number was not measured.
pub fn figure(value: f64) -> String {
    match value.abs() {
        size if size.is_nan() => "–".into(),
        size if size >= 100. => grouped(value.round() as i64),
        size if size >= 10. => format!("{value:.1}"),
        _ => format!("{value:.2}"),
    }
}

/// A whole number, its digits in groups of three.
pub fn grouped(number: i64) -> String {
    let digits = number.to_string();
    let groups: Vec<_> = digits.as_bytes().rchunks(3).rev().collect();
    let groups = groups
        .into_iter()
        .map(|group| String::from_utf8_lossy(group));
    groups.collect::<Vec<_>>().join(",").replace("-,", "-")
}

/// Original, port and their ratio.
pub fn side_by_side(times: Times) -> String {
    let Times { original, port } = times;
    let ratio = figure(times.ratio());
    format!("{}, {}: {ratio}", figure(original), figure(port))
}

/// The same, with a ratio above the goal in bold.
pub fn against_goal(times: Times, goal: f64) -> String {
    let shown = side_by_side(times);
    match shown.rsplit_once(' ') {
        Some((times, ratio)) if is_missed(ratio, goal) => format!("{times} **{ratio}**"),
        _ => shown,
    }
}

/// By the figure that is shown.
fn is_missed(ratio: &str, goal: f64) -> bool {
    ratio
        .replace(',', "")
        .parse()
        .is_ok_and(|ratio: f64| ratio > goal)
}

#[cfg(test)]
mod tests {
    use super::*;

    #[test]
    fn figures_have_three_digits_that_count() {
        let shown = [0.5, 9.994, 10.04, 99.94, 100.4, 1234.5, f64::NAN].map(figure);
        assert_eq!(shown, ["0.50", "9.99", "10.0", "99.9", "100", "1,235", "–"]);
    }

    #[test]
    fn digits_stand_in_groups_of_three() {
        let shown = [0, 999, 1000, -999, -1_000_000].map(grouped);
        assert_eq!(shown, ["0", "999", "1,000", "-999", "-1,000,000"]);
    }

    /// What is shown as the goal is no miss.
    #[test]
    fn a_ratio_above_its_goal_is_bold() {
        let of = |port| Times {
            original: 1000.,
            port,
        };
        assert_eq!(against_goal(of(504.), 0.5), "1,000, 504: 0.50");
        assert_eq!(against_goal(of(506.), 0.5), "1,000, 506: **0.51**");
        assert_eq!(against_goal(of(2e6), 0.5), "1,000, 2,000,000: **2,000**");
    }
}
