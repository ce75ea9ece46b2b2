//! The calls of a list.

use harness::{
    images::samples::bytes,
    model::{state::Entry, Kind},
    words::{monomial_words, ratio_words, word, CALL, INDEX},
};

#[derive(Debug, Clone, Copy, PartialEq, Eq)]
pub enum Call {
    InsertMonomial,
    Contained,
    InsertRatio,
    Reducer,
    High,
    Low,
    Singular,
}

impl Call {
    /// By number.
    pub const ALL: [Call; 7] = [
        Call::InsertMonomial,
        Call::Contained,
        Call::InsertRatio,
        Call::Reducer,
        Call::High,
        Call::Low,
        Call::Singular,
    ];

    pub fn insert(kind: Kind) -> Self {
        match kind {
            Kind::Monomial => Call::InsertMonomial,
            Kind::Ratio => Call::InsertRatio,
        }
    }

    /// A search that visits many leaves, and in which the original never panics.
    pub fn split(kind: Kind) -> Self {
        match kind {
            Kind::Monomial => Call::Contained,
            Kind::Ratio => Call::Low,
        }
    }

    /// The index that serves it.
    pub fn kind(self) -> Kind {
        match self {
            Call::InsertMonomial | Call::Contained => Kind::Monomial,
            _ => Kind::Ratio,
        }
    }

    pub fn is_insert(self) -> bool {
        self == Call::insert(self.kind())
    }

    pub fn name(self) -> &'static str {
        match self {
            Call::InsertMonomial => "insert, monomial",
            Call::Contained => "contained",
            Call::InsertRatio => "insert, ratio",
            Call::Reducer => "reducer",
            Call::High => "high",
            Call::Low => "low",
            Call::Singular => "singular",
        }
    }

    /// The largest ratio, port / original, that was wanted.
    pub fn goal(self) -> f64 {
        if self.is_insert() {
            1.
        } else {
            0.5
        }
    }

    /// The bytes of a list of these calls.
    pub fn list(self, queries: &[Entry]) -> Vec<u8> {
        let words: Vec<_> = queries.iter().flat_map(|query| self.words(query)).collect();
        bytes(&words)
    }

    fn words(self, query: &Entry) -> Vec<u32> {
        let head = vec![word(CALL, self as u32)];
        let index = vec![word(INDEX, query.index)];
        let sign = || monomial_words(query.sign.vars());
        let lm = || monomial_words(query.lm.vars());
        let ratio = || ratio_words(query.ratio().monomial.vars());
        match self {
            Call::InsertMonomial | Call::Contained => [head, lm()].concat(),
            Call::InsertRatio | Call::Singular => [head, index, sign(), lm()].concat(),
            Call::Reducer | Call::High => [head, index, ratio(), lm()].concat(),
            Call::Low => [head, index, sign()].concat(),
        }
    }
}
