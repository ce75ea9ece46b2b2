//! Answers to calls, and the numbers in them.

use std::fmt;

use crate::{
    answer::{kind, payload},
    Refusal,
};

/// The number of an entry: entries are numbered from 0 as they are inserted.
///
/// It is the place of the caller's own data where each accepted insert pushes
/// one element: `polys[number.index()]`.
#[derive(Debug, Clone, Copy, PartialEq, Eq, PartialOrd, Ord, Hash)]
pub struct EntryNumber(u32);

impl EntryNumber {
    /// The bare number.
    pub fn get(self) -> u32 {
        self.0
    }

    /// The number as a place in a slice.
    pub fn index(self) -> usize {
        self.0 as usize
    }
}

impl fmt::Display for EntryNumber {
    fn fmt(&self, f: &mut fmt::Formatter<'_>) -> fmt::Result {
        self.0.fmt(f)
    }
}

/// The index of a signature, below 2^28. A larger one is refused by the call,
/// with [`Refusal::NotCanonical`].
#[derive(Debug, Clone, Copy, PartialEq, Eq, PartialOrd, Ord, Hash)]
pub struct SignatureIndex(u32);

impl SignatureIndex {
    /// The bare number.
    pub fn get(self) -> u32 {
        self.0
    }
}

impl From<u32> for SignatureIndex {
    fn from(index: u32) -> Self {
        SignatureIndex(index)
    }
}

/// What a search for a reducer found.
#[derive(Debug, Clone, Copy, PartialEq, Eq, Hash)]
pub struct Reducer {
    /// The entry whose leading monomial divides.
    pub entry: EntryNumber,
    /// How its ratio compares.
    pub kind: ReducerKind,
}

/// How the ratio of a reducer compares with that of the query.
#[derive(Debug, Clone, Copy, PartialEq, Eq, Hash)]
pub enum ReducerKind {
    /// Strictly below.
    Regular,
    /// Equal; then there is no regular reducer.
    Singular,
}

/// What can be read from an answer's payload. The crate does not export it, so
/// that numbers of entries come from an index alone.
pub trait Reply: Copy {
    /// The answer of this payload.
    fn of(payload: u32) -> Self;
}

impl Reply for bool {
    fn of(payload: u32) -> Self {
        payload == 1
    }
}

impl Reply for EntryNumber {
    fn of(payload: u32) -> Self {
        EntryNumber(payload)
    }
}

impl Reply for Option<EntryNumber> {
    fn of(payload: u32) -> Self {
        payload.checked_sub(1).map(EntryNumber)
    }
}

impl Reply for Option<Reducer> {
    fn of(payload: u32) -> Self {
        const SINGULAR: u32 = 1 << 27;
        let kind = match payload & SINGULAR {
            0 => ReducerKind::Regular,
            _ => ReducerKind::Singular,
        };
        let entry = Option::<EntryNumber>::of(payload & !SINGULAR)?;
        Some(Reducer { entry, kind })
    }
}

/// Reads an answer word: kind 4 is an answer, kind 5 a refusal.
pub fn read<T: Reply>(word: u32) -> Result<T, Refusal> {
    match kind(word) {
        4 => Ok(T::of(payload(word))),
        _ => Err(Refusal::try_from(payload(word)).expect("an answer word")),
    }
}
