//! Document 01's meanings: what a search must answer by the entries held, with
//! no tree in sight. Ties are left open where the document leaves them to the
//! Rust.

use std::cmp::Ordering;

use crate::{
    model::{
        calls::{Call, Search},
        mutation::Rules,
        powers::{Powers, Ratio},
        Kind,
    },
    words::{kind, payload, word, ANSWER, SINGULAR},
};

struct Entry {
    ratio: Ratio,
    sign: Powers,
    lm: Powers,
}

impl Entry {
    fn compare(&self, ratio: &Ratio) -> Ordering {
        self.ratio.compare(ratio, Rules::document_01())
    }
}

/// The entries held, by number.
pub struct Held {
    kind: Kind,
    variables: usize,
    entries: Vec<Entry>,
}

impl Held {
    pub fn new(kind: Kind, variables: usize) -> Self {
        Self {
            kind,
            variables,
            entries: vec![],
        }
    }

    /// Whether the answer to a call is one that the meanings allow. An insert
    /// that was served is held from then on. Refusals are not judged here.
    pub fn allows(&mut self, call: &[u32], answer: u32) -> bool {
        if kind(answer) != ANSWER {
            return true;
        }
        match Call::read(call, self.kind, self.variables, Rules::document_01()) {
            Err(_) => false,
            Ok(Call::InsertMonomial(lm)) => self.hold(0, Powers::one(self.variables), lm) == answer,
            Ok(Call::Insert { index, sign, lm }) => self.hold(index, sign, lm) == answer,
            Ok(Call::Search(search)) => self.allows_found(&search, payload(answer)),
        }
    }

    /// The answer to an insert.
    fn hold(&mut self, index: u32, sign: Powers, lm: Powers) -> u32 {
        let monomial = sign.over(&lm);
        let ratio = Ratio { index, monomial };
        self.entries.push(Entry { ratio, sign, lm });
        word(ANSWER, self.entries.len() as u32 - 1)
    }

    fn allows_found(&self, search: &Search, payload: u32) -> bool {
        match search {
            Search::Contained(monomial) => {
                payload == u32::from(self.entries.iter().any(|e| e.lm.divides(monomial)))
            }
            Search::Reducer { ratio, lm } => self.allows_reducer(ratio, lm, payload),
            Search::High { ratio, lm } => {
                self.allows_largest(payload, |e| e.lm.divides(lm) && e.compare(ratio).is_gt())
            }
            Search::Low { index, sign } => {
                self.allows_largest(payload, |e| e.ratio.index == *index && e.sign.divides(sign))
            }
            Search::Singular { index, sign, lm } => {
                let ratio = Ratio {
                    index: *index,
                    monomial: sign.over(lm),
                };
                let singular = |e: &Entry| {
                    e.ratio.index == *index && e.sign.divides(sign) && e.compare(&ratio).is_gt()
                };
                payload == u32::from(self.entries.iter().any(singular))
            }
        }
    }

    /// A regular reducer if there is one, else a singular one.
    fn allows_reducer(&self, ratio: &Ratio, lm: &Powers, payload: u32) -> bool {
        let is = |order| move |e: &Entry| e.lm.divides(lm) && e.compare(ratio) == order;
        let (regular, singular) = (is(Ordering::Less), is(Ordering::Equal));
        if self.entries.iter().any(&regular) {
            self.entry(payload).is_some_and(regular)
        } else if self.entries.iter().any(&singular) {
            payload
                .checked_sub(SINGULAR)
                .and_then(|found| self.entry(found))
                .is_some_and(singular)
        } else {
            payload == 0
        }
    }

    /// Of the entries that qualify one with the largest ratio.
    fn allows_largest(&self, payload: u32, qualifies: impl Fn(&Entry) -> bool) -> bool {
        let mut qualified = self.entries.iter().filter(|e| qualifies(e)).peekable();
        if qualified.peek().is_none() {
            return payload == 0;
        }
        self.entry(payload).is_some_and(|found| {
            qualifies(found) && qualified.all(|e| e.compare(&found.ratio).is_le())
        })
    }

    /// The entry that a search found, from its payload.
    fn entry(&self, payload: u32) -> Option<&Entry> {
        self.entries.get(payload.checked_sub(1)? as usize)
    }
}
