//! The label map.

use super::{
    mutation::{Mutation, Rules},
    powers::Ratio,
};

/// Values with their labels, in rising order, and the values as they arrived.
#[derive(Debug, Clone)]
pub struct Labels {
    rows: Vec<(Ratio, u32)>,
    arrived: Vec<Ratio>,
    rules: Rules,
}

impl Labels {
    pub fn new(rules: Rules) -> Self {
        Self::of_rows(vec![], rules)
    }

    /// With these values, in order of arrival, and labels.
    pub fn of_rows(mut rows: Vec<(Ratio, u32)>, rules: Rules) -> Self {
        let arrived = rows.iter().map(|(value, _)| value.clone()).collect();
        rows.sort_by(|a, b| a.0.compare(&b.0, rules));
        Self {
            rows,
            arrived,
            rules,
        }
    }

    /// Values and labels in rising order of value.
    pub fn rows(&self) -> &[(Ratio, u32)] {
        &self.rows
    }

    /// The values in order of arrival.
    pub fn arrived(&self) -> &[Ratio] {
        &self.arrived
    }

    /// How many values are known.
    pub fn count(&self) -> usize {
        self.rows.len()
    }

    /// The label of a known value.
    pub fn known(&self, value: &Ratio) -> Option<u32> {
        let at = self.place(value).ok()?;
        Some(self.rows[at].1)
    }

    /// The position of a known value in rising order.
    pub fn rank(&self, value: &Ratio) -> Option<usize> {
        self.place(value).ok()
    }

    /// The label of a value, which is the half sum of its neighbours' if it is
    /// new, or none if no label lies between those.
    pub fn get(&mut self, value: &Ratio) -> Option<u32> {
        let at = match self.place(value) {
            Ok(at) => return Some(self.rows[at].1),
            Err(at) => at,
        };
        let low_end = -i64::from(!self.rules.has(Mutation::LowEndZero));
        let high_end = (1 << 32) - i64::from(self.rules.has(Mutation::HighEndLower));
        let low = at.checked_sub(1).map_or(low_end, |at| self.label(at));
        let high = if at < self.rows.len() {
            self.label(at)
        } else {
            high_end
        };
        if high - low < 2 {
            return None;
        }

        let round = i64::from(self.rules.has(Mutation::HalfSumRoundedUp));
        let label = ((low + high + round) / 2) as u32;
        self.rows.insert(at, (value.clone(), label));
        self.arrived.push(value.clone());
        Some(label)
    }

    /// The k-th of n values gets k × (2^32 − 1) / (n + 1), rounded down.
    pub fn rebuild(&mut self) {
        let spread = u64::from(u32::MAX) + u64::from(self.rules.has(Mutation::RebuildByTwoTo32));
        let parts = self.rows.len() as u64 + 1;
        for (k, (_, label)) in (1..).zip(&mut self.rows) {
            *label = (k * spread / parts) as u32;
        }
        if self.rules.has(Mutation::RowsSortedAtRebuild) {
            self.arrived = self.rows.iter().map(|(value, _)| value.clone()).collect();
        }
    }

    fn label(&self, at: usize) -> i64 {
        self.rows[at].1.into()
    }

    fn place(&self, value: &Ratio) -> Result<usize, usize> {
        self.rows
            .binary_search_by(|(row, _)| row.compare(value, self.rules))
    }
}
