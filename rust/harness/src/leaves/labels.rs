//! The label map alone: a run of values and rebuilds.

use std::fmt;

use original::oracle::{monomial, Labels as OriginalLabels};

use super::Hex;
use crate::{
    model::{calls::read_value, labels::Labels as ModelLabels, mutation::Rules},
    order::Order,
    original_run::read_quotient,
    words::{kind, payload, INDEX},
};

/// A map, opened with these, and what is done to it.
#[derive(Debug, Clone)]
pub struct LabelWork {
    pub variables: usize,
    pub capacity: usize,
    pub steps: Vec<Step>,
}

#[derive(Debug, Clone)]
pub enum Step {
    /// Asks for the label of a value: index and ratio.
    Value(Vec<u32>),
    Rebuild,
}

/// The answer to a step.
#[derive(Debug, Clone, Copy, PartialEq, Eq)]
pub enum Labelled {
    Label(u32),
    Refused(u32),
    Rebuilt,
}

impl fmt::Display for Labelled {
    fn fmt(&self, f: &mut fmt::Formatter<'_>) -> fmt::Result {
        match self {
            Labelled::Label(label) => write!(f, "{label:08x}"),
            Labelled::Refused(number) => write!(f, "!{number}"),
            Labelled::Rebuilt => write!(f, "."),
        }
    }
}

impl From<Result<u32, u32>> for Labelled {
    fn from(answer: Result<u32, u32>) -> Self {
        answer.map_or_else(Labelled::Refused, Labelled::Label)
    }
}

pub fn by_original(work: &LabelWork) -> Vec<Labelled> {
    let mut map = OriginalMap::new(work.variables, work.capacity);
    let mut answers = vec![];
    for step in &work.steps {
        answers.push(match step {
            Step::Value(value) => map.ask(value).into(),
            Step::Rebuild => {
                map.rebuild();
                Labelled::Rebuilt
            }
        });
    }
    answers
}

/// The original's map. It knows no capacity, so the values that it has taken
/// are kept here.
pub struct OriginalMap {
    variables: usize,
    capacity: usize,
    labels: OriginalLabels<Order>,
    known: Vec<Vec<u32>>,
}

impl OriginalMap {
    pub fn new(variables: usize, capacity: usize) -> Self {
        OriginalMap {
            variables,
            capacity,
            labels: OriginalLabels::new(),
            known: vec![],
        }
    }

    /// Questions 7, 8 and 10.
    pub fn ask(&mut self, value: &[u32]) -> Result<u32, u32> {
        let mut words = value.iter().copied();
        let index = words
            .next()
            .filter(|word| kind(*word) == INDEX)
            .ok_or(7u32)?;
        let ratio = read_quotient(&mut words, self.variables).ok_or(7u32)?;
        if words.next().is_some() {
            return Err(7);
        }
        let is_known = self.known.iter().any(|known| known == value);
        if !is_known && self.known.len() >= self.capacity {
            return Err(8);
        }
        let label = self
            .labels
            .get_comparer(payload(index), monomial(&ratio))
            .ok_or(10u32)?;
        if !is_known {
            self.known.push(value.to_vec());
        }
        Ok(label)
    }

    pub fn rebuild(&mut self) {
        self.labels.rebuild();
    }

    /// The label of each value taken, in order of arrival.
    pub fn labels(&mut self) -> Vec<u32> {
        let known = self.known.clone();
        let labels = known.iter().map(|value| self.ask(value));
        labels.collect::<Result<_, _>>().expect("known values")
    }

    /// The words of each value taken, in order of arrival.
    pub fn known(&self) -> &[Vec<u32>] {
        &self.known
    }
}

pub fn by_model(work: &LabelWork) -> Vec<Labelled> {
    let mut labels = ModelLabels::new(Rules::document_01());
    let mut answers = vec![];
    for step in &work.steps {
        answers.push(match step {
            Step::Value(value) => ask_model(&mut labels, value, work).into(),
            Step::Rebuild => {
                labels.rebuild();
                Labelled::Rebuilt
            }
        });
    }
    answers
}

fn ask_model(labels: &mut ModelLabels, value: &[u32], work: &LabelWork) -> Result<u32, u32> {
    let value = read_value(value, work.variables).ok_or(7u32)?;
    match labels.known(&value) {
        Some(label) => Ok(label),
        None if labels.count() >= work.capacity => Err(8),
        None => labels.get(&value).ok_or(10),
    }
}

/// One line: `labels`, variables and capacity, each step after a colon, and
/// after `=` for each step its label, `!` and the refusal, or `.` for a rebuild.
pub fn vector(work: &LabelWork, answers: &[Labelled]) -> String {
    let steps: String = work.steps.iter().map(show_step).collect();
    let answers: String = answers.iter().map(|answer| format!(" {answer}")).collect();
    format!(
        "labels {:x} {:x}{steps} ={answers}",
        work.variables, work.capacity
    )
}

fn show_step(step: &Step) -> String {
    match step {
        Step::Value(value) => format!(" :{}", Hex(value)),
        Step::Rebuild => " : rebuild".to_string(),
    }
}
