//! What the image of an index holds, by value
//! (crates/index_theory/specs/State.antt).

use super::{
    divmask::Map,
    labels::Labels,
    mutation::Rules,
    powers::{Powers, Ratio},
    reach::Reached,
    store::Store,
    tree::Node,
    Index, Kind,
};

/// A state need not be a valid one.
#[derive(Debug, Clone, PartialEq, Eq)]
pub struct State {
    pub kind: Kind,
    pub capacity: usize,
    /// The present maxima, one for each variable.
    pub maxima: Vec<i32>,
    /// The maxima that the map of masks was made from.
    pub map_maxima: Vec<i32>,
    /// An entry's number is its place.
    pub entries: Vec<Entry>,
    pub tree: Tree,
    /// Ratios in order of arrival, each with its label. A monomial index has
    /// none.
    pub rows: Vec<(Ratio, u32)>,
}

/// In a monomial index the index is 0 and the signature monomial one.
#[derive(Debug, Clone, PartialEq, Eq)]
pub struct Entry {
    pub index: u32,
    pub sign: Powers,
    pub lm: Powers,
}

#[derive(Debug, Clone, PartialEq, Eq)]
pub enum Tree {
    /// Numbers of entries.
    Leaf(Vec<usize>),
    Branch(Box<Branch>),
}

#[derive(Debug, Clone, PartialEq, Eq)]
pub struct Branch {
    pub dim: usize,
    /// A power, or in the dimension of the ratio the number of an entry.
    pub key: u32,
    pub less: Tree,
    pub other: Tree,
}

impl State {
    pub fn variables(&self) -> usize {
        self.maxima.len()
    }

    /// How many dimensions come before those of the variables.
    pub fn ratio_dimensions(&self) -> usize {
        match self.kind {
            Kind::Monomial => 0,
            Kind::Ratio => 1,
        }
    }

    pub fn dimensions(&self) -> usize {
        self.ratio_dimensions() + self.variables()
    }
}

impl Entry {
    pub fn ratio(&self) -> Ratio {
        Ratio {
            index: self.index,
            monomial: self.sign.over(&self.lm),
        }
    }
}

impl Tree {
    pub fn branch(dim: usize, key: u32, less: Tree, other: Tree) -> Self {
        Tree::Branch(Box::new(Branch {
            dim,
            key,
            less,
            other,
        }))
    }

    /// The numbers of the entries in the order of the leaves.
    pub fn places(&self) -> Vec<usize> {
        let mut places = vec![];
        self.list(&mut places);
        places
    }

    fn list(&self, into: &mut Vec<usize>) {
        match self {
            Tree::Leaf(places) => into.extend(places),
            Tree::Branch(branch) => {
                branch.less.list(into);
                branch.other.list(into);
            }
        }
    }

    /// The node with so many before it in preorder.
    pub fn node_mut(&mut self, at: usize) -> &mut Tree {
        if at == 0 {
            return self;
        }
        let Tree::Branch(branch) = self else {
            panic!("a leaf has no nodes below");
        };
        let less = branch.less.nodes();
        match at <= less {
            true => branch.less.node_mut(at - 1),
            false => branch.other.node_mut(at - 1 - less),
        }
    }

    pub fn nodes(&self) -> usize {
        match self {
            Tree::Leaf(_) => 1,
            Tree::Branch(branch) => 1 + branch.less.nodes() + branch.other.nodes(),
        }
    }
}

impl Index {
    /// What an image of this index holds.
    pub fn state(&self) -> State {
        let entries = self.store.entries.iter().map(|entry| Entry {
            index: entry.ratio.index,
            sign: entry.sign.clone(),
            lm: entry.lm.clone(),
        });
        let labels = &self.store.labels;
        let rows = labels.arrived().iter();
        let rows = rows.map(|ratio| (ratio.clone(), labels.known(ratio).unwrap()));
        State {
            kind: self.store.kind,
            capacity: self.capacity,
            maxima: self.maxima.clone(),
            map_maxima: self.map_maxima.clone(),
            entries: entries.collect(),
            tree: self.tree.shape(&self.store),
            rows: rows.collect(),
        }
    }

    /// The index of a valid state.
    pub fn of_state(state: &State, rules: Rules) -> Self {
        let rows = state.rows.clone();
        let mut store = Store {
            rules,
            kind: state.kind,
            variables: state.variables(),
            map: Map::new(&state.map_maxima, rules),
            entries: vec![],
            labels: Labels::of_rows(rows, rules),
            reached: Reached::default(),
        };
        for entry in &state.entries {
            let ratio = match state.kind {
                Kind::Monomial => Ratio::one(state.variables()),
                Kind::Ratio => entry.ratio(),
            };
            store.push(ratio, entry.sign.clone(), entry.lm.clone());
        }
        Index {
            tree: Node::of_shape(&store, &state.tree),
            store,
            capacity: state.capacity,
            maxima: state.maxima.clone(),
            map_maxima: state.map_maxima.clone(),
            rebuilds: 0,
        }
    }
}
