//! Question 3 of an index: document 01's paragraph on sound images, rule by
//! rule.
//!
//! An image is read to a state, as far as it can be, whatever rules it breaks.
//! The state is judged by value, and its own image is held against the words:
//! a word that differs breaks the rule that gives it. An image is sound where no
//! rule is broken, and a rule can be left out where it alone is broken.

use std::{collections::HashSet, fmt, slice::Chunks};

use super::{
    image::{Shape, Written, HEADER, LABELS_HEADER},
    mutation::Rules,
    powers::{Powers, Ratio},
    state::{Branch, Entry, State, Tree},
    Kind,
};
use crate::words::{
    kind, payload, MAX_CAPACITY, MAX_POWER, MAX_VARIABLES, RATIO_BIAS, RATIO_VARIABLE, VARIABLE,
};

named! {
    /// What a sound image keeps to.
    Rule

    // Header and maxima.
    Length: "the bytes are as long as the image",
    Layout: "the layout number is 1",
    Kind: "the index kind is 0 or 1",
    Variables: "there are 1 to 64 variables",
    Capacity: "the capacity is 1 to 4,096",
    Entries: "there are no more entries than the capacity",
    Nodes: "the header has the number of nodes",
    Kept: "the header's other words are 0",
    Maxima: "the maxima are 1 to 32,767",
    MapMaxima: "the map's maxima are 1 to 32,767",
    // Entries.
    Lm: "an lm has its canonical words, then zeros",
    LmPowers: "an lm's powers are at most 32,767",
    LmMask: "an lm has its mask",
    LmVector: "an lm has its short exponent vector",
    Index: "an entry's index is a kind 3 word",
    Sign: "a signature monomial has its canonical words, then zeros",
    SignPowers: "a signature monomial's powers are at most 32,767",
    SignMask: "a signature monomial has its mask",
    SignVector: "a signature monomial has its short exponent vector",
    Row: "an entry names the row of its ratio",
    EntriesRest: "the words behind the entries are 0",
    Once: "the leaves hold each entry once",
    PermutationRest: "the words behind the permutation are 0",
    // Labels.
    LabelsLayout: "the label map's layout number is 1",
    LabelsVariables: "the label map has the index's variables",
    LabelsCapacity: "the label map has the index's capacity",
    LabelsRows: "there are no more rows than the capacity",
    RowIndex: "a row's index is a kind 3 word",
    RowRatio: "a row's ratio has its canonical words, then zeros",
    RowsRest: "the words behind the rows are 0",
    Order: "the order names the rows as their ratios rise",
    OrderRest: "the words behind the order are 0",
    Differ: "no ratio has two rows",
    LabelsRise: "labels rise with ratios",
    Labelled: "an entry's ratio has a row",
    Needed: "a row's ratio is that of an entry",
    // Nodes.
    Dimension: "a branch's dimension is one of the index",
    KeyEntry: "a ratio key is the number of an entry",
    LessSome: "the less side of a branch is not empty",
    OtherSome: "the other side of a branch is not empty",
    LessBelow: "the less side lies below the key",
    OtherNotBelow: "the other side lies not below the key",
    Count: "a node has the number of its entries",
    Skip: "a branch skips the nodes of its less side",
    BranchMask: "a branch has the mask of its gcd",
    BranchGcd: "a branch has the gcd of its entries, then zeros",
    LeafKey: "a leaf's key is 0",
    LeafSkip: "a leaf's skip is 0",
    LeafMask: "a leaf has the mask of its gcd",
    LeafGcd: "a leaf has the gcd of its entries, then zeros",
    NodesRest: "the words behind the nodes are 0",
}

/// A set of rules.
#[derive(Clone, Copy, Default, PartialEq, Eq)]
pub struct Broken(u64);

impl Broken {
    pub fn insert(&mut self, rule: Rule) {
        self.0 |= 1 << rule as u32;
    }

    pub fn is_empty(self) -> bool {
        self.0 == 0
    }

    pub fn has(self, rule: Rule) -> bool {
        self.0 >> rule as u32 & 1 == 1
    }

    pub fn iter(self) -> impl Iterator<Item = Rule> {
        let rules = Rule::ALL.iter().copied();
        rules.filter(move |rule| self.has(*rule))
    }

    fn break_unless(&mut self, rule: Rule, holds: bool) {
        if !holds {
            self.insert(rule);
        }
    }
}

impl fmt::Debug for Broken {
    fn fmt(&self, f: &mut fmt::Formatter<'_>) -> fmt::Result {
        f.debug_set().entries(self.iter()).finish()
    }
}

/// What bytes say of an index.
#[derive(Debug, Clone)]
pub struct Reading {
    pub broken: Broken,
    /// The state that was read; none where header or length leave nothing to
    /// read.
    pub state: Option<State>,
}

impl Reading {
    pub fn is_sound(&self) -> bool {
        self.broken.is_empty()
    }

    /// The rule without which the image would be sound.
    pub fn only(&self) -> Option<Rule> {
        let mut rules = self.broken.iter();
        let only = rules.next().filter(|_| rules.next().is_none());
        self.state.as_ref().and(only)
    }
}

/// Variables, capacity and missing words are read past their limits this far.
const PAST: usize = 1;
const MOST_MISSING: usize = 1 << 14;

/// Reads the image at the front of the bytes.
pub fn read(bytes: &[u8]) -> Reading {
    let mut broken = Broken::default();
    let (words, _) = bytes.as_chunks();
    let mut words: Vec<u32> = words.iter().map(|word| u32::from_le_bytes(*word)).collect();
    let shape = read_shape(&words, &mut broken).filter(|shape| {
        let size = shape.size();
        broken.break_unless(Rule::Length, words.len() >= size);
        words.len() + MOST_MISSING >= size
    });
    let state = shape.map(|shape| {
        words.resize(shape.size(), 0);
        let state = read_state(shape, &words);
        judge(&state, &mut broken);
        let written = Written::image(&state);
        if words != written.words {
            let pairs = words.iter().zip(&written.words).enumerate();
            for (at, _) in pairs.filter(|(_, (word, own))| word != own) {
                broken.insert(written.rule(at));
            }
        }
        state
    });
    Reading { broken, state }
}

pub fn is_sound(bytes: &[u8]) -> bool {
    read(bytes).is_sound()
}

fn read_shape(words: &[u32], broken: &mut Broken) -> Option<Shape> {
    let Some(header) = words.first_chunk::<HEADER>() else {
        broken.insert(Rule::Length);
        return None;
    };
    let [variables, capacity] = [header[2] as usize, header[3] as usize];
    let within = |number, most| (1..=most).contains(&number);
    broken.break_unless(Rule::Variables, within(variables, MAX_VARIABLES));
    broken.break_unless(Rule::Capacity, within(capacity, MAX_CAPACITY));
    let readable = variables <= MAX_VARIABLES + PAST && capacity <= MAX_CAPACITY + PAST;
    readable.then_some(Shape {
        kind: match header[1] {
            0 => Kind::Monomial,
            _ => Kind::Ratio,
        },
        variables,
        capacity,
    })
}

fn read_state(shape: Shape, words: &[u32]) -> State {
    let Shape { kind, capacity, .. } = shape;
    let entries = (words[4] as usize).min(capacity);
    let permutation = &words[shape.permutation_at()..][..entries];
    let mut nodes = Nodes {
        rows: words[shape.nodes_at()..].chunks(shape.node_width()),
        permutation,
    };
    State {
        kind,
        capacity,
        maxima: signed(&words[HEADER..shape.map_at()]),
        map_maxima: signed(&words[shape.map_at()..shape.entries_at()]),
        entries: words[shape.entries_at()..]
            .chunks(shape.entry_width())
            .take(entries)
            .map(|entry| read_entry(shape, entry))
            .collect(),
        tree: nodes.read(),
        rows: match kind {
            Kind::Monomial => vec![],
            Kind::Ratio => read_rows(shape, &words[shape.labels_at()..]),
        },
    }
}

fn signed(maxima: &[u32]) -> Vec<i32> {
    maxima.iter().map(|maximum| *maximum as i32).collect()
}

fn read_entry(shape: Shape, words: &[u32]) -> Entry {
    let variables = shape.variables;
    let slot = |at: usize| read_slot(&words[at..][..shape.slot()], variables, VARIABLE, 0);
    Entry {
        lm: slot(0),
        index: match shape.kind {
            Kind::Monomial => 0,
            Kind::Ratio => payload(words[shape.masked()]),
        },
        sign: match shape.kind {
            Kind::Monomial => Powers::one(variables),
            Kind::Ratio => slot(shape.sign()),
        },
    }
}

fn read_rows(shape: Shape, labels: &[u32]) -> Vec<(Ratio, u32)> {
    let count = (labels[3] as usize).min(shape.capacity);
    let rows = labels[LABELS_HEADER..].chunks(shape.row_width());
    let row = |words: &[u32]| {
        let ratio = &words[1..][..shape.slot()];
        let ratio = Ratio {
            index: payload(words[0]),
            monomial: read_slot(ratio, shape.variables, RATIO_VARIABLE, RATIO_BIAS),
        };
        (ratio, words[1 + shape.slot()])
    };
    rows.take(count).map(row).collect()
}

/// The powers in a slot, up to a word of another kind. Of an id that comes twice
/// the last counts, an id that is too large counts for nothing.
fn read_slot(slot: &[u32], variables: usize, variable: u32, bias: i32) -> Powers {
    let mut powers = Powers::one(variables);
    for word in slot.iter().take_while(|word| kind(**word) == variable) {
        let id = (payload(*word) >> 16) as usize;
        if let Some(power) = powers.0.get_mut(id) {
            *power = (word & 0xFFFF) as i32 - bias;
        }
    }
    powers
}

/// What is not yet read of the nodes and of the permutation.
struct Nodes<'a> {
    rows: Chunks<'a, u32>,
    permutation: &'a [u32],
}

impl Nodes<'_> {
    /// The tree whose root is the next row; an empty leaf where no row is left.
    fn read(&mut self) -> Tree {
        let Some([tag, key, count, ..]) = self.rows.next() else {
            return Tree::Leaf(vec![]);
        };
        if *tag == 0 {
            let count = (*count as usize).min(self.permutation.len());
            let (places, rest) = self.permutation.split_at(count);
            self.permutation = rest;
            return Tree::Leaf(places.iter().map(|place| *place as usize).collect());
        }
        let less = self.read();
        let other = self.read();
        Tree::branch(*tag as usize - 1, *key, less, other)
    }
}

/// What is said of values: a valid state breaks none of these rules.
fn judge(state: &State, broken: &mut Broken) {
    let maxima = |maxima: &[i32]| maxima.iter().all(|m| (1..=MAX_POWER).contains(m));
    broken.break_unless(Rule::Maxima, maxima(&state.maxima));
    broken.break_unless(Rule::MapMaxima, maxima(&state.map_maxima));

    let powers = |monomial: &Powers| monomial.0.iter().all(|power| *power <= MAX_POWER);
    for entry in &state.entries {
        broken.break_unless(Rule::LmPowers, powers(&entry.lm));
        broken.break_unless(Rule::SignPowers, powers(&entry.sign));
    }

    let mut places = state.tree.places();
    places.sort();
    broken.break_unless(Rule::Once, places.into_iter().eq(0..state.entries.len()));

    let ratios: Vec<Ratio> = state.entries.iter().map(Entry::ratio).collect();
    if state.kind == Kind::Ratio {
        judge_labels(&state.rows, &ratios, broken);
    }
    judge_tree(state, &ratios, &state.tree, broken);
}

fn judge_labels(rows: &[(Ratio, u32)], ratios: &[Ratio], broken: &mut Broken) {
    let mut rising: Vec<&(Ratio, u32)> = rows.iter().collect();
    rising.sort_by(|a, b| {
        let by_ratio = a.0.compare(&b.0, Rules::document_01());
        by_ratio.then(a.1.cmp(&b.1))
    });
    for pair in rising.windows(2) {
        let [(ratio, label), (next, next_label)] = [pair[0], pair[1]];
        broken.break_unless(Rule::Differ, ratio != next);
        broken.break_unless(Rule::LabelsRise, ratio == next || label < next_label);
    }

    let labelled: HashSet<&Ratio> = rows.iter().map(|(ratio, _)| ratio).collect();
    let needed: HashSet<&Ratio> = ratios.iter().collect();
    broken.break_unless(Rule::Labelled, needed.is_subset(&labelled));
    broken.break_unless(Rule::Needed, labelled.is_subset(&needed));
}

fn judge_tree(state: &State, ratios: &[Ratio], tree: &Tree, broken: &mut Broken) {
    let Tree::Branch(branch) = tree else {
        return;
    };
    let Branch { less, other, .. } = &**branch;
    let (lesser, others) = (less.places(), other.places());
    broken.break_unless(Rule::LessSome, !lesser.is_empty());
    broken.break_unless(Rule::OtherSome, !others.is_empty());
    match Key::of(branch, state, ratios) {
        Ok(key) => {
            let is_entry = |place: &&usize| **place < ratios.len();
            let below = |place: &usize| key.is_above(&state.entries[*place], &ratios[*place]);
            let all_below = lesser.iter().filter(is_entry).all(below);
            let none_below = !others.iter().filter(is_entry).any(below);
            broken.break_unless(Rule::LessBelow, all_below);
            broken.break_unless(Rule::OtherNotBelow, none_below);
        }
        Err(rule) => broken.insert(rule),
    }
    judge_tree(state, ratios, less, broken);
    judge_tree(state, ratios, other, broken);
}

/// What the less side of a branch lies below.
enum Key<'a> {
    Power(usize, u32),
    Ratio(&'a Ratio),
}

impl<'a> Key<'a> {
    /// The key of a branch, or the rule that it breaks.
    fn of(branch: &Branch, state: &State, ratios: &'a [Ratio]) -> Result<Self, Rule> {
        match branch.dim.checked_sub(state.ratio_dimensions()) {
            Some(id) if id < state.variables() => Ok(Key::Power(id, branch.key)),
            Some(_) => Err(Rule::Dimension),
            None => {
                let ratio = ratios.get(branch.key as usize);
                ratio.map(Key::Ratio).ok_or(Rule::KeyEntry)
            }
        }
    }

    fn is_above(&self, entry: &Entry, ratio: &Ratio) -> bool {
        match self {
            Key::Power(id, power) => (entry.lm.0[*id] as u32) < *power,
            Key::Ratio(key) => ratio.compare(key, Rules::document_01()).is_lt(),
        }
    }
}
