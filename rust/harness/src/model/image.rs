//! The image of an index: one state, one list of words
//! (crates/index_image/specs/Layout.antt).

use std::{cmp::Reverse, collections::HashMap};

use super::{
    divmask::{vector, Map},
    mutation::Rules,
    powers::{Powers, Ratio},
    soundness::Rule,
    state::{State, Tree},
    Kind,
};
use crate::words::{monomial_words, ratio_words, word, INDEX};

/// The first word of an image, and of the label map in it.
const LAYOUT: u32 = 1;

/// Words before the maxima.
pub const HEADER: usize = 24;

/// Words before the rows of the label map.
pub const LABELS_HEADER: usize = 4;

/// What the places of the tables follow from.
#[derive(Debug, Clone, Copy, PartialEq, Eq)]
pub struct Shape {
    pub kind: Kind,
    pub variables: usize,
    pub capacity: usize,
}

impl Shape {
    pub fn of(state: &State) -> Self {
        Shape {
            kind: state.kind,
            variables: state.variables(),
            capacity: state.capacity,
        }
    }

    /// A monomial, then zeros.
    pub fn slot(&self) -> usize {
        self.variables + 1
    }

    /// A monomial in its slot, its mask and its short exponent vector.
    pub fn masked(&self) -> usize {
        self.slot() + 2
    }

    /// Where the signature monomial stands in an entry, behind the index.
    pub fn sign(&self) -> usize {
        self.masked() + 1
    }

    /// The lm, masked; in a ratio index also the index, the signature monomial,
    /// masked, and the row of the ratio.
    pub fn entry_width(&self) -> usize {
        match self.kind {
            Kind::Monomial => self.masked(),
            Kind::Ratio => 2 * self.masked() + 2,
        }
    }

    /// Index, ratio and label.
    pub fn row_width(&self) -> usize {
        self.slot() + 2
    }

    /// Tag, key, count, skip, mask and gcd.
    pub fn node_width(&self) -> usize {
        self.slot() + 5
    }

    pub fn map_at(&self) -> usize {
        HEADER + self.variables
    }

    pub fn entries_at(&self) -> usize {
        self.map_at() + self.variables
    }

    pub fn permutation_at(&self) -> usize {
        self.entries_at() + self.capacity * self.entry_width()
    }

    pub fn labels_at(&self) -> usize {
        self.permutation_at() + self.capacity
    }

    pub fn rows_at(&self) -> usize {
        self.labels_at() + LABELS_HEADER
    }

    pub fn order_at(&self) -> usize {
        self.rows_at() + self.capacity * self.row_width()
    }

    pub fn nodes_at(&self) -> usize {
        match self.kind {
            Kind::Monomial => self.labels_at(),
            Kind::Ratio => self.order_at() + self.capacity,
        }
    }

    pub fn nodes(&self) -> usize {
        (2 * self.capacity).saturating_sub(1)
    }

    /// The words of the image.
    pub fn size(&self) -> usize {
        self.nodes_at() + self.nodes() * self.node_width()
    }
}

/// The image of a state.
pub fn encode(state: &State) -> Vec<u32> {
    Written::image(state).words
}

/// Words, each with the rule that gives it.
#[derive(Debug, Default)]
pub struct Written {
    pub words: Vec<u32>,
    /// Each rule with the place behind its words.
    rules: Vec<(usize, Rule)>,
}

impl Written {
    pub fn image(state: &State) -> Self {
        let shape = Shape::of(state);
        let map = map(&state.map_maxima);
        let mut image = Written::default();
        image.words.reserve_exact(shape.size());
        image.header(state);
        image.put(Rule::Maxima, bare(&state.maxima));
        image.put(Rule::MapMaxima, bare(&state.map_maxima));
        image.entries(state, &map);
        image.fill(Rule::EntriesRest, shape.permutation_at());
        image.put(Rule::Once, state.tree.places().into_iter().map(number));
        image.fill(Rule::Once, shape.permutation_at() + state.entries.len());
        image.fill(Rule::PermutationRest, shape.labels_at());
        if state.kind == Kind::Ratio {
            image.labels(state);
        }
        image.tree(state, &map, &state.tree);
        image.fill(Rule::NodesRest, shape.size());
        image
    }

    /// The rule that gives the word at a place.
    pub fn rule(&self, at: usize) -> Rule {
        let behind = self.rules.partition_point(|(end, _)| *end <= at);
        self.rules[behind].1
    }

    fn put(&mut self, rule: Rule, words: impl IntoIterator<Item = u32>) {
        self.words.extend(words);
        self.rules.push((self.words.len(), rule));
    }

    /// Zeros up to a place.
    fn fill(&mut self, rule: Rule, end: usize) {
        self.words.resize(end.max(self.words.len()), 0);
        self.rules.push((self.words.len(), rule));
    }

    fn slot(&mut self, rule: Rule, words: Vec<u32>, variables: usize) {
        let end = self.words.len() + variables + 1;
        self.put(rule, words);
        self.fill(rule, end);
    }

    fn header(&mut self, state: &State) {
        let kind = match state.kind {
            Kind::Monomial => 0,
            Kind::Ratio => 1,
        };
        self.put(Rule::Layout, [LAYOUT]);
        self.put(Rule::Kind, [kind]);
        self.put(Rule::Variables, [number(state.variables())]);
        self.put(Rule::Capacity, [number(state.capacity)]);
        self.put(Rule::Entries, [number(state.entries.len())]);
        self.put(Rule::Nodes, [number(state.tree.nodes())]);
        self.fill(Rule::Kept, HEADER);
    }

    fn entries(&mut self, state: &State, map: &Map) {
        let variables = state.variables();
        let numbered = state.rows.iter().zip(0..);
        let rows: HashMap<&Ratio, u32> = numbered.map(|((ratio, _), row)| (ratio, row)).collect();
        for entry in &state.entries {
            self.slot(Rule::Lm, monomial_words(entry.lm.vars()), variables);
            self.put(Rule::LmMask, [map.mask(&entry.lm)]);
            self.put(Rule::LmVector, [vector(&entry.lm, Rules::document_01())]);
            if state.kind == Kind::Ratio {
                self.put(Rule::Index, [word(INDEX, entry.index)]);
                self.slot(Rule::Sign, monomial_words(entry.sign.vars()), variables);
                self.put(Rule::SignMask, [map.mask(&entry.sign)]);
                let vector = vector(&entry.sign, Rules::document_01());
                self.put(Rule::SignVector, [vector]);
                let row = rows.get(&entry.ratio()).copied().unwrap_or(0);
                self.put(Rule::Row, [row]);
            }
        }
    }

    fn labels(&mut self, state: &State) {
        let shape = Shape::of(state);
        self.put(Rule::LabelsLayout, [LAYOUT]);
        self.put(Rule::LabelsVariables, [number(shape.variables)]);
        self.put(Rule::LabelsCapacity, [number(shape.capacity)]);
        self.put(Rule::LabelsRows, [number(state.rows.len())]);
        for (ratio, label) in &state.rows {
            self.put(Rule::RowIndex, [word(INDEX, ratio.index)]);
            let words = ratio_words(ratio.monomial.vars());
            self.slot(Rule::RowRatio, words, shape.variables);
            self.put(Rule::LabelsRise, [*label]);
        }
        self.fill(Rule::RowsRest, shape.order_at());
        self.put(Rule::Order, rising(&state.rows).into_iter().map(number));
        self.fill(Rule::OrderRest, shape.nodes_at());
    }

    /// The nodes in preorder.
    fn tree(&mut self, state: &State, map: &Map, tree: &Tree) {
        let places = tree.places();
        let gcd = gcd(state, &places);
        let (tag, key, skip, rules) = match tree {
            Tree::Leaf(_) => (0, 0, 0, LEAF),
            Tree::Branch(branch) => {
                let tag = number(branch.dim).wrapping_add(1);
                (tag, branch.key, branch.less.nodes(), BRANCH)
            }
        };
        self.put(Rule::Dimension, [tag]);
        self.put(rules.key, [key]);
        self.put(Rule::Count, [number(places.len())]);
        self.put(rules.skip, [number(skip)]);
        self.put(rules.mask, [map.mask(&gcd)]);
        self.slot(rules.gcd, monomial_words(gcd.vars()), state.variables());
        if let Tree::Branch(branch) = tree {
            self.tree(state, map, &branch.less);
            self.tree(state, map, &branch.other);
        }
    }
}

/// The rules of a node's words.
struct NodeRules {
    key: Rule,
    skip: Rule,
    mask: Rule,
    gcd: Rule,
}

const LEAF: NodeRules = NodeRules {
    key: Rule::LeafKey,
    skip: Rule::LeafSkip,
    mask: Rule::LeafMask,
    gcd: Rule::LeafGcd,
};

const BRANCH: NodeRules = NodeRules {
    key: Rule::KeyEntry,
    skip: Rule::Skip,
    mask: Rule::BranchMask,
    gcd: Rule::BranchGcd,
};

/// The map of masks. A maximum past all powers is as good as a greater one, and
/// a state with either isn't valid.
pub fn map(maxima: &[i32]) -> Map {
    let maxima: Vec<i32> = maxima.iter().map(|m| (*m).clamp(0, 1 << 16)).collect();
    Map::new(&maxima, Rules::document_01())
}

/// The gcd of the lms of some entries, one for none. A place that has no entry
/// counts for nothing.
fn gcd(state: &State, places: &[usize]) -> Powers {
    let entries = places.iter().filter_map(|place| state.entries.get(*place));
    let gcd = entries.fold(None, |gcd: Option<Powers>, entry| match gcd {
        None => Some(entry.lm.clone()),
        Some(mut gcd) => {
            for (least, power) in gcd.0.iter_mut().zip(&entry.lm.0) {
                *least = (*least).min(*power);
            }
            Some(gcd)
        }
    });
    gcd.unwrap_or(Powers::one(state.variables()))
}

/// The row numbers in rising order of ratio, of equal ones the last first.
fn rising(rows: &[(Ratio, u32)]) -> Vec<usize> {
    let mut order: Vec<usize> = (0..rows.len()).collect();
    order.sort_by(|a, b| {
        let by_ratio = rows[*a].0.compare(&rows[*b].0, Rules::document_01());
        by_ratio.then_with(|| Reverse(a).cmp(&Reverse(b)))
    });
    order
}

fn bare(maxima: &[i32]) -> impl Iterator<Item = u32> + '_ {
    maxima.iter().map(|maximum| *maximum as u32)
}

fn number(number: usize) -> u32 {
    number as u32
}
