//! The k-d tree: inserting, splitting, searching, listing.

use super::{
    mutation::{Mutation, Rules},
    powers::Powers,
    query::{Found, Key, Panic, Path, Query},
    state::Tree,
    store::Store,
};

/// A searched leaf with more entries than this is split.
const MAX_LEAF_SIZE: usize = 64;

/// A node and the gcd of the entries below it, one if there are none.
#[derive(Debug, Clone)]
pub struct Node {
    gcd: Powers,
    below: Below,
}

#[derive(Debug, Clone)]
enum Below {
    /// Numbers of the entries.
    Leaf(Vec<usize>),
    Branch(Box<Branch>),
}

#[derive(Debug, Clone)]
struct Branch {
    key: Key,
    less: Node,
    other: Node,
}

impl Node {
    pub fn leaf(store: &Store, entries: Vec<usize>) -> Self {
        let lms = entries.iter().map(|number| &store.entries[*number].lm);
        let gcd = lms.fold(None, |gcd: Option<Powers>, lm| {
            Some(gcd.map_or_else(|| lm.clone(), |gcd| gcd.gcd(lm)))
        });
        Node {
            gcd: gcd.unwrap_or(Powers::one(store.variables)),
            below: Below::Leaf(entries),
        }
    }

    pub fn is_branch(&self) -> bool {
        matches!(self.below, Below::Branch(_))
    }

    pub fn insert(&mut self, store: &Store, number: usize) {
        match &mut self.below {
            Below::Leaf(entries) => {
                let lm = &store.entries[number].lm;
                self.gcd = match entries.is_empty() {
                    true => lm.clone(),
                    false => self.gcd.gcd(lm),
                };
                entries.push(number);
            }
            Below::Branch(branch) => {
                if !store.rules.has(Mutation::LoweringLeftOut) {
                    let gcd = self.gcd.gcd(&store.entries[number].lm);
                    store.reached.lowered(&store.map, &self.gcd, &gcd);
                    self.gcd = gcd;
                }
                let side = if store.is_below(number, &branch.key) {
                    &mut branch.less
                } else {
                    &mut branch.other
                };
                side.insert(store, number);
            }
        }
    }

    /// Searches below this node and tells whether to go on after it.
    pub fn search(
        &mut self,
        store: &Store,
        next_dim: usize,
        query: &Query,
        found: &mut Found,
    ) -> bool {
        if let Below::Leaf(entries) = &mut self.below {
            if store.rules.has(Mutation::MaskAskedAtLeaf) && query.is_masked_out(store, &self.gcd) {
                return true;
            }
            if entries.len() > max_leaf_size(store.rules) {
                match bifurcate(store, entries, next_dim) {
                    Some(branch) => self.below = Below::Branch(Box::new(branch)),
                    None => {
                        found.panic.get_or_insert(Panic::RepeatedElements);
                    }
                }
            }
        }
        match &mut self.below {
            Below::Leaf(entries) => entries
                .iter()
                .all(|number| query.visit(store, *number, found)),
            Below::Branch(branch) => branch.search(store, &self.gcd, query, found),
        }
    }

    /// Splits every leaf, as a search does that leaves out nothing.
    pub fn split(&mut self, store: &Store, next_dim: usize) {
        if let Below::Leaf(entries) = &self.below {
            if entries.len() > max_leaf_size(store.rules) {
                if let Some(branch) = bifurcate(store, entries, next_dim) {
                    self.below = Below::Branch(Box::new(branch));
                }
            }
        }
        if let Below::Branch(branch) = &mut self.below {
            let next_dim = store.dimension(&branch.key) + 1;
            branch.less.split(store, next_dim);
            branch.other.split(store, next_dim);
        }
    }

    /// Writes the entries in the order of the tree.
    pub fn list(&self, into: &mut Vec<usize>) {
        match &self.below {
            Below::Leaf(entries) => into.extend(entries),
            Below::Branch(branch) => {
                branch.less.list(into);
                branch.other.list(into);
            }
        }
    }

    /// Writes the tree as the original's is shown (`original::oracle::shown`).
    pub fn show(&self, store: &Store, words: &mut Vec<u32>) {
        show_masked(store.map.mask(&self.gcd), &self.gcd, words);
        match &self.below {
            Below::Leaf(entries) => {
                words.extend([0, entries.len() as u32]);
                for number in entries {
                    store.show(*number, words);
                }
            }
            Below::Branch(branch) => {
                words.extend([1, store.dimension(&branch.key) as u32, branch.key.word()]);
                branch.less.show(store, words);
                branch.other.show(store, words);
            }
        }
    }

    /// The tree as an image holds it.
    pub fn shape(&self, store: &Store) -> Tree {
        match &self.below {
            Below::Leaf(entries) => Tree::Leaf(entries.clone()),
            Below::Branch(branch) => Tree::branch(
                store.dimension(&branch.key),
                branch.key.word(),
                branch.less.shape(store),
                branch.other.shape(store),
            ),
        }
    }

    /// The tree that an image holds.
    pub fn of_shape(store: &Store, tree: &Tree) -> Self {
        let places = tree.places();
        let leaf = Self::leaf(store, places);
        match tree {
            Tree::Leaf(_) => leaf,
            Tree::Branch(branch) => Node {
                gcd: leaf.gcd,
                below: Below::Branch(Box::new(Branch {
                    key: store.key_of(branch.dim, branch.key),
                    less: Self::of_shape(store, &branch.less),
                    other: Self::of_shape(store, &branch.other),
                })),
            },
        }
    }

    /// Writes the key of each branch.
    pub fn keys<'a>(&'a self, into: &mut Vec<&'a Key>) {
        if let Below::Branch(branch) = &self.below {
            into.push(&branch.key);
            branch.less.keys(into);
            branch.other.keys(into);
        }
    }
}

impl Branch {
    fn search(&mut self, store: &Store, gcd: &Powers, query: &Query, found: &mut Found) -> bool {
        let next_dim = if store.rules.has(Mutation::DimensionOfParentFirst) {
            store.dimension(&self.key)
        } else {
            store.dimension(&self.key) + 1
        };
        let Branch { key, less, other } = self;
        let (first, second) = match query.path(store, key, gcd) {
            Path::None => return true,
            Path::Less => return less.search(store, next_dim, query, found),
            Path::Other => return other.search(store, next_dim, query, found),
            Path::Both if store.rules.has(Mutation::OtherSideFirst) => (other, less),
            Path::Both => (less, other),
        };
        let go_on = first.search(store, next_dim, query, found);
        if go_on {
            return second.search(store, next_dim, query, found);
        }
        if store.rules.has(Mutation::OtherSideAfterStop) {
            second.search(store, next_dim, query, &mut Found::default());
        }
        false
    }
}

/// A monomial with its mask, as the original's are shown.
pub fn show_masked(mask: u32, monomial: &Powers, words: &mut Vec<u32>) {
    let variables = monomial.vars();
    words.extend([mask, variables.clone().count() as u32]);
    words.extend(variables.map(|(id, power)| u32::from(id) << 16 | power as u32));
}

fn max_leaf_size(rules: Rules) -> usize {
    if rules.has(Mutation::LeafOf64Split) {
        MAX_LEAF_SIZE - 1
    } else if rules.has(Mutation::LeafOf65Unsplit) {
        MAX_LEAF_SIZE + 1
    } else {
        MAX_LEAF_SIZE
    }
}

/// The branch that splits these entries in the first dimension where they
/// differ, or none if they are equal in every dimension.
fn bifurcate(store: &Store, entries: &[usize], next_dim: usize) -> Option<Branch> {
    let dimensions = store.dimensions();
    let first = if store.rules.has(Mutation::DimensionsFromZero) {
        0
    } else {
        next_dim
    };
    let tried = if store.rules.has(Mutation::DimensionsNotRound) {
        first..dimensions
    } else {
        first..first + dimensions
    };
    tried
        .map(|dim| dim % dimensions)
        .find_map(|dim| bifurcate_at(store, entries, dim))
}

fn bifurcate_at(store: &Store, entries: &[usize], dim: usize) -> Option<Branch> {
    let values = entries.iter().map(|number| store.value(*number, dim));
    let least = values.clone().min()?;
    let greatest = values.max()?;
    if least == greatest {
        return None;
    }

    let average = average(least, greatest, store.rules);
    let (less, mut other): (Vec<usize>, Vec<usize>) = entries.iter().partition(|number| {
        let value = store.value(**number, dim);
        value < average || value == average && store.rules.has(Mutation::AverageOnLessSide)
    });
    if less.is_empty() || other.is_empty() {
        // Wrong rules alone come here.
        return None;
    }
    if store.rules.has(Mutation::OtherSideReversed) {
        other.reverse();
    }

    store.reached.split(store.kind, store.variables, dim);
    Some(Branch {
        key: store.key(&other, dim, average),
        less: Node::leaf(store, less),
        other: Node::leaf(store, other),
    })
}

fn average(least: i64, greatest: i64, rules: Rules) -> i64 {
    let round = i64::from(!rules.has(Mutation::AverageRoundedDown));
    (least + greatest + round) / 2
}
