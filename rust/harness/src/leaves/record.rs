//! Vectors as words, for the program crates/oracle_replay.

use super::{Answer, Leaf, Operands, Work};

/// A record: its own length in words, operation, variables, room in words, the
/// number returned, the lengths of both operands, the operands, and the words
/// written. A refusal writes none. Maxima are written over themselves, so
/// there it is the maxima afterwards, served or refused.
pub fn record(work: &Work, answer: &Answer) -> Vec<u32> {
    let (a, b) = match &work.operands {
        Operands::Two(a, b) => (a.clone(), b.clone()),
        Operands::Masked { maxima, monomial } => (maxima.clone(), monomial.clone()),
        Operands::Grown { maxima, percentage } => (maxima.clone(), vec![(*percentage).into()]),
        Operands::Masks(a, b) => (vec![*a], vec![*b]),
    };
    let (number, written) = match answer {
        Ok(words) if work.leaf == Leaf::MaskDivides => (words[0], vec![]),
        Ok(words) => (0, words.clone()),
        Err(number) if work.leaf == Leaf::Update => (*number, a.clone()),
        Err(number) => (*number, vec![]),
    };
    let head = [
        operation(work.leaf),
        work.variables,
        work.room as u32,
        number,
        a.len() as u32,
        b.len() as u32,
    ];
    let rest = [&head[..], &a, &b, &written].concat();
    [vec![1 + rest.len() as u32], rest].concat()
}

/// The operation's number, its place in [`Leaf::ALL`].
fn operation(leaf: Leaf) -> u32 {
    let place = Leaf::ALL.into_iter().position(|other| other == leaf);
    place.expect("every leaf is listed") as u32
}
