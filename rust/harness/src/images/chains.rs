//! The deepest trees that an image can hold, and balanced ones of the same
//! entries.

use std::ops::Range;

use crate::model::{
    powers::Powers,
    state::{Entry, State, Tree},
    Kind,
};

/// How the entries are halved, down to leaves of one.
#[derive(Debug, Clone, Copy, PartialEq, Eq)]
pub enum Form {
    /// The less side of every branch is a leaf.
    LessLeaves,
    /// The other side of every branch is a leaf.
    OtherLeaves,
    Balanced,
}

impl Form {
    pub const ALL: [Form; 3] = [Form::LessLeaves, Form::OtherLeaves, Form::Balanced];
}

/// A full index. The dimensions of its branches take turns.
pub fn full(kind: Kind, variables: usize, capacity: usize, form: Form) -> State {
    let mut state = State {
        kind,
        capacity,
        maxima: vec![1; variables],
        map_maxima: vec![capacity as i32; variables],
        entries: vec![],
        tree: Tree::Leaf(vec![]),
        rows: vec![],
    };
    state.entries = (0..capacity).map(|at| entry(&state, at)).collect();
    if kind == Kind::Ratio {
        let labels = (0..).map(|at| at << 16);
        let ratios = state.entries.iter().map(Entry::ratio);
        state.rows = ratios.zip(labels).collect();
    }
    state.tree = tree(&state, 0..capacity, form);
    state
}

/// From one entry to the next one power rises, each in its turn, or in the turn
/// of the ratio none. Ratios always rise.
fn entry(state: &State, at: usize) -> Entry {
    let dimensions = state.dimensions();
    let first = state.ratio_dimensions();
    let power = |id| ((at + dimensions - 1 - first - id) / dimensions) as i32;
    let lm = Powers((0..state.variables()).map(power).collect());
    let mut sign = lm.clone();
    match state.kind {
        Kind::Monomial => sign = Powers::one(state.variables()),
        Kind::Ratio => sign.0[0] += at as i32,
    }
    Entry { index: 0, sign, lm }
}

fn tree(state: &State, places: Range<usize>, form: Form) -> Tree {
    let Range { start, end } = places;
    if end - start == 1 {
        return Tree::Leaf(vec![start]);
    }
    let at = match form {
        Form::LessLeaves => start + 1,
        Form::OtherLeaves => end - 1,
        Form::Balanced => start.midpoint(end),
    };
    let dim = (at - 1) % state.dimensions();
    let key = match dim.checked_sub(state.ratio_dimensions()) {
        Some(id) => state.entries[at].lm.0[id] as u32,
        None => at as u32,
    };
    let less = tree(state, start..at, form);
    let other = tree(state, at..end, form);
    Tree::branch(dim, key, less, other)
}
