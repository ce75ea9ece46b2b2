//! What was run and compared, and what the jobs reached.

use std::{fmt, ops::AddAssign};

use crate::{
    model::{
        query::Panic,
        reach::{Reach, Reached},
        Index, Kind,
    },
    words::{kind, REFUSAL},
};

#[derive(Debug, Default, Clone)]
pub struct Tally {
    pub jobs: usize,
    pub lists: usize,
    pub calls: usize,
    pub refusals: usize,
    pub splits: usize,
    pub rebuilds: usize,
    /// Panics of the original, each where the model expects it.
    pub repeated_elements: usize,
    pub not_above: usize,
    /// Calls that were also made as typed ones.
    pub typed_calls: usize,
    pub reached: Reached,
    /// For each of them the jobs in which it came about.
    pub reaching_jobs: Vec<usize>,
}

impl Tally {
    /// Counts a call by its answer and the original's panic in it.
    pub fn count(&mut self, answer: u32, panic: Option<Panic>) {
        self.calls += 1;
        self.refusals += usize::from(kind(answer) == REFUSAL);
        self.repeated_elements += usize::from(panic == Some(Panic::RepeatedElements));
        self.not_above += usize::from(panic == Some(Panic::NotAbove));
    }

    /// Counts what the job's model has come to.
    pub fn end_job(&mut self, model: &Index, lists: usize) {
        self.jobs = 1;
        self.lists = lists;
        self.splits = model.branches().len();
        self.rebuilds = model.rebuilds();
        self.reached = model.reached().clone();
        let reached = Reach::ALL.iter().map(|reach| self.reached.of(*reach));
        self.reaching_jobs = reached.map(|times| usize::from(times > 0)).collect();
    }

    /// What no job reached.
    pub fn unreached(&self) -> Vec<&'static str> {
        let reaches = Reach::ALL.iter();
        let unreached = reaches.filter(|reach| self.reached.of(**reach) == 0);
        let mut unreached: Vec<_> = unreached.map(|reach| reach.describe()).collect();
        for kind in [Kind::Monomial, Kind::Ratio] {
            if self.reached.splits(kind).any(|splits| splits == 0) {
                unreached.push("a split in every dimension with 33 and more variables");
            }
        }
        unreached
    }

    /// A table of what the jobs reached.
    pub fn reach_table(&self) -> String {
        let rows = Reach::ALL.iter().zip(&self.reaching_jobs);
        let rows = rows.map(|(reach, jobs)| {
            let times = self.reached.of(*reach);
            format!("| {} | {times} | {jobs} |\n", reach.describe())
        });
        let splits = [Kind::Monomial, Kind::Ratio].map(|kind| {
            let least = self.reached.splits(kind).min().unwrap_or(0);
            format!("| a split of 33 and more variables in the dimension of a {kind:?} index that has fewest | {least} | |\n")
        });
        let head = "| what | times | jobs |\n|---|---|---|\n".to_owned();
        head + &rows.chain(splits).collect::<String>()
    }
}

impl AddAssign for Tally {
    fn add_assign(&mut self, other: Self) {
        self.jobs += other.jobs;
        self.lists += other.lists;
        self.calls += other.calls;
        self.refusals += other.refusals;
        self.splits += other.splits;
        self.rebuilds += other.rebuilds;
        self.repeated_elements += other.repeated_elements;
        self.not_above += other.not_above;
        self.typed_calls += other.typed_calls;
        self.reached.add(&other.reached);
        self.reaching_jobs.resize(Reach::ALL.len(), 0);
        for (mine, others) in self.reaching_jobs.iter_mut().zip(other.reaching_jobs) {
            *mine += others;
        }
    }
}

impl fmt::Display for Tally {
    fn fmt(&self, f: &mut fmt::Formatter<'_>) -> fmt::Result {
        write!(
            f,
            "{} jobs, {} lists, {} calls, {} refusals, {} splits, {} rebuilds, \
             panics of the original: {} repeated elements, {} not above, {} typed calls",
            self.jobs,
            self.lists,
            self.calls,
            self.refusals,
            self.splits,
            self.rebuilds,
            self.repeated_elements,
            self.not_above,
            self.typed_calls
        )
    }
}
