//! Document 01's index, written plainly: dense monomials, everything compared by
//! value, and no stored mask or label that a search would ask.

#[macro_use]
mod named;

pub mod calls;
pub mod divmask;
pub mod image;
pub mod label_map;
pub mod labels;
pub mod mutation;
pub mod powers;
pub mod query;
pub mod reach;
pub mod soundness;
pub mod state;
pub mod store;
pub mod tree;

use self::{
    calls::{Call, Search},
    divmask::Map,
    labels::Labels,
    mutation::{Mutation, Rules},
    powers::{Powers, Ratio},
    query::{Found, Key, Panic, Query},
    reach::Reached,
    store::Store,
    tree::Node,
};
use crate::words::{
    kind, monomial_words, payload, word, ANSWER, CALL, MAX_CAPACITY, MAX_POWER, MAX_VARIABLES,
    REFUSAL,
};

#[derive(Debug, Clone, Copy, PartialEq, Eq)]
pub enum Kind {
    Monomial,
    Ratio,
}

/// What an index is opened with.
#[derive(Debug, Clone)]
pub struct Opening {
    pub kind: Kind,
    pub capacity: usize,
    /// One for each variable.
    pub maxima: Vec<i32>,
}

impl Opening {
    /// Question 1.
    pub fn is_served(&self) -> bool {
        (1..=MAX_CAPACITY).contains(&self.capacity) && are_maxima(&self.maxima)
    }
}

/// Question 1 of variables and maxima.
pub fn are_maxima(maxima: &[i32]) -> bool {
    (1..=MAX_VARIABLES).contains(&maxima.len())
        && maxima.iter().all(|m| (1..=MAX_POWER).contains(m))
}

/// The answer to one call.
#[derive(Debug, Clone, Copy)]
pub struct Served {
    pub word: u32,
    /// The original panics in this call.
    pub panic: Option<Panic>,
}

/// An index of either kind.
#[derive(Debug, Clone)]
pub struct Index {
    store: Store,
    capacity: usize,
    maxima: Vec<i32>,
    /// What the map of masks was made from.
    map_maxima: Vec<i32>,
    tree: Node,
    rebuilds: usize,
}

impl Index {
    pub fn open(opening: &Opening, rules: Rules) -> Self {
        assert!(opening.is_served());
        let store = Store {
            rules,
            kind: opening.kind,
            variables: opening.maxima.len(),
            map: Map::new(&opening.maxima, rules),
            entries: vec![],
            labels: Labels::new(rules),
            reached: Reached::default(),
        };
        Self {
            tree: Node::leaf(&store, vec![]),
            store,
            capacity: opening.capacity,
            maxima: opening.maxima.clone(),
            map_maxima: opening.maxima.clone(),
            rebuilds: 0,
        }
    }

    /// Serves a list into an answer buffer of so many words, or refuses it.
    pub fn run(&mut self, list: &[u32], room: usize) -> Result<Vec<u32>, u32> {
        if list.first().is_some_and(|first| kind(*first) != CALL) {
            return Err(4);
        }
        let calls = calls::split(list);
        if room < calls.len() {
            return Err(5);
        }
        Ok(calls.iter().map(|call| self.call(call).word).collect())
    }

    /// Serves one call, given from its kind 6 word to its end.
    pub fn call(&mut self, call: &[u32]) -> Served {
        match self.question(call) {
            Ok(call) => self.serve(call),
            Err(number) => {
                let entries = self.store.entries.len();
                let branches = self.tree.is_branch();
                self.store.reached.refused(number, entries, branches);
                Served {
                    word: word(REFUSAL, number),
                    panic: None,
                }
            }
        }
    }

    /// Questions 6, 7 and 8.
    fn question(&self, call: &[u32]) -> Result<Call, u32> {
        let Store {
            kind,
            variables,
            rules,
            ..
        } = self.store;
        let full = self.store.entries.len() >= self.capacity;
        let read = Call::read(call, kind, variables, rules);
        let insert = matches!(payload(call[0]), 0 | 2);
        if full && insert && rules.has(Mutation::CapacityBeforeBody) && matches!(read, Err(7)) {
            return Err(8);
        }
        match read? {
            Call::InsertMonomial(_) | Call::Insert { .. } if full => Err(8),
            call => Ok(call),
        }
    }

    fn serve(&mut self, call: Call) -> Served {
        let (payload, panic) = match call {
            Call::InsertMonomial(lm) => (self.insert(0, None, lm), None),
            Call::Insert { index, sign, lm } => (self.insert(index, Some(sign), lm), None),
            Call::Search(search) => self.search(search),
        };
        Served {
            word: word(ANSWER, payload),
            panic,
        }
    }

    /// Inserts an entry, in a monomial index without a signature, and gives its
    /// number.
    fn insert(&mut self, index: u32, sign: Option<Powers>, lm: Powers) -> u32 {
        self.update_maxima(sign.as_ref(), &lm);
        let number = match sign {
            None => {
                let ratio = Ratio::one(self.store.variables);
                let sign = ratio.monomial.clone();
                self.store.push(ratio, sign, lm)
            }
            Some(sign) => {
                let monomial = sign.over(&lm);
                let ratio = Ratio { index, monomial };
                self.label(&ratio);
                self.store.push(ratio, sign, lm)
            }
        };
        self.tree.insert(&self.store, number);
        number as u32
    }

    fn update_maxima(&mut self, sign: Option<&Powers>, lm: &Powers) {
        let rules = self.store.rules;
        let mut monomials: Vec<&Powers> = sign.into_iter().chain([lm]).collect();
        if rules.has(Mutation::UpdateLmFirst) {
            monomials.reverse();
        }
        for monomial in monomials {
            divmask::update(&mut self.maxima, monomial, rules);
        }
    }

    /// Gives a ratio a label, dealing all labels afresh if none is left.
    fn label(&mut self, ratio: &Ratio) {
        let labels = &mut self.store.labels;
        let early = self.store.rules.has(Mutation::RebuildEveryInsert);
        if early || labels.get(ratio).is_none() {
            self.rebuilds += 1;
            labels.rebuild();
            labels.get(ratio).expect("a label is free after a rebuild");
            if self.store.rules.has(Mutation::MapRemadeAtRebuild) {
                self.map_maxima = self.maxima.clone();
                self.store.remap(Map::new(&self.maxima, self.store.rules));
            }
        }
        self.store.reached.labelled(&self.store.labels, ratio);
    }

    fn search(&mut self, search: Search) -> (u32, Option<Panic>) {
        let query = Query::new(&self.store, search);
        let mut found = Found::default();
        self.tree.search(&self.store, 0, &query, &mut found);
        (query.payload(&found), found.panic)
    }

    /// Splits every leaf, as a search does that leaves out nothing.
    pub fn split(&mut self) {
        self.tree.split(&self.store, 0);
    }

    /// The payload that a search would have if it looked at every entry in the
    /// order of the tree up to its first stop, pruning nothing.
    pub fn search_unpruned(&self, search: Search) -> u32 {
        let query = Query::new(&self.store, search);
        let mut found = Found::default();
        self.order()
            .into_iter()
            .all(|number| query.process(&self.store, number, &mut found));
        query.payload(&found)
    }

    /// The search that a call asks for, if it is a search and served.
    pub fn as_search(&self, call: &[u32]) -> Option<Search> {
        match self.question(call) {
            Ok(Call::Search(search)) => Some(search),
            _ => None,
        }
    }

    /// Writes the tree as the original's is shown; without entries it shows
    /// nothing.
    pub fn show(&self, words: &mut Vec<u32>) {
        if !self.store.entries.is_empty() {
            self.tree.show(&self.store, words);
        }
    }

    /// What came about so far.
    pub fn reached(&self) -> &Reached {
        &self.store.reached
    }

    /// The numbers of the entries in the order of the tree.
    pub fn order(&self) -> Vec<usize> {
        let mut order = vec![];
        self.tree.list(&mut order);
        order
    }

    /// The listing of a monomial index into a buffer of so many words.
    pub fn list(&self, room: usize) -> Result<Vec<u32>, u32> {
        if self.store.kind != Kind::Monomial {
            return Err(6);
        }
        let words: Vec<u32> = self
            .order()
            .into_iter()
            .flat_map(|number| monomial_words(self.store.entries[number].lm.vars()))
            .collect();
        if room < words.len() {
            return Err(5);
        }
        Ok(words)
    }

    /// The label of each entry of a ratio index.
    pub fn labels(&self) -> Vec<u32> {
        let numbers = 0..self.store.entries.len();
        numbers.map(|n| self.store.label(n) as u32).collect()
    }

    /// The keys of the branches.
    pub fn branches(&self) -> Vec<&Key> {
        let mut keys = vec![];
        self.tree.keys(&mut keys);
        keys
    }

    pub fn maxima(&self) -> &[i32] {
        &self.maxima
    }

    pub fn rebuilds(&self) -> usize {
        self.rebuilds
    }
}
