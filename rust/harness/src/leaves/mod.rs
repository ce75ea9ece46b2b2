//! The operations below the index, words in and words out: monomial, mask and
//! growth work, and the label map alone.
//!
//! [`by_original`] asks the original and [`by_model`] the model; [`crate::doors`]
//! asks the port through C.

pub mod by_model;
pub mod by_original;
pub mod label_record;
pub mod labels;
pub mod record;
pub mod samples;

use std::fmt;

/// An operation. Its answer stands beside it.
#[derive(Debug, Clone, Copy, PartialEq, Eq)]
pub enum Leaf {
    /// Two monomials: a monomial.
    Gcd,
    /// Two monomials: a monomial, or a kind 4 word with payload 0.
    WholeDivision,
    /// Two monomials: a kind 4 word, yes 1, no 0.
    Divides,
    /// Two monomials: a ratio.
    FractionDivision,
    /// Two monomials: a monomial.
    Mul,
    /// Two monomials: a kind 4 word, yes 1, no 0.
    Eq,
    /// Two monomials: a kind 4 word, less 0, equal 1, greater 2.
    Ord,
    /// Two ratios: a kind 4 word, yes 1, no 0.
    EqRatio,
    /// Two ratios: a kind 4 word, less 0, equal 1, greater 2.
    OrdRatio,
    /// Maxima and a monomial: a bare word.
    Mask,
    /// Two masks: not divisible 0, unsure 1. It has no question, and its answer
    /// is returned and not written.
    MaskDivides,
    /// Maxima and a monomial: the new maxima as bare words.
    Update,
    /// Maxima and a percentage: a kind 4 word, yes 1, no 0.
    Growth,
}

impl Leaf {
    pub const ALL: [Leaf; 13] = [
        Leaf::Gcd,
        Leaf::WholeDivision,
        Leaf::Divides,
        Leaf::FractionDivision,
        Leaf::Mul,
        Leaf::Eq,
        Leaf::Ord,
        Leaf::EqRatio,
        Leaf::OrdRatio,
        Leaf::Mask,
        Leaf::MaskDivides,
        Leaf::Update,
        Leaf::Growth,
    ];

    fn name(self) -> &'static str {
        match self {
            Leaf::Gcd => "gcd",
            Leaf::WholeDivision => "whole_division",
            Leaf::Divides => "divides",
            Leaf::FractionDivision => "fraction_division",
            Leaf::Mul => "mul",
            Leaf::Eq => "eq",
            Leaf::Ord => "ord",
            Leaf::EqRatio => "eq_ratio",
            Leaf::OrdRatio => "ord_ratio",
            Leaf::Mask => "mask",
            Leaf::MaskDivides => "mask_divides",
            Leaf::Update => "update",
            Leaf::Growth => "growth",
        }
    }
}

/// An operation with what is lent to it.
#[derive(Debug, Clone)]
pub struct Work {
    pub leaf: Leaf,
    pub variables: u32,
    /// Words of room for the answer.
    pub room: usize,
    pub operands: Operands,
}

#[derive(Debug, Clone)]
pub enum Operands {
    Two(Vec<u32>, Vec<u32>),
    Masked {
        maxima: Vec<u32>,
        monomial: Vec<u32>,
    },
    Grown {
        maxima: Vec<u32>,
        percentage: u8,
    },
    Masks(u32, u32),
}

/// The answer's words, or the number of the refusal.
pub type Answer = Result<Vec<u32>, u32>;

/// Question 1 of the variables.
fn are_variables(variables: u32) -> Result<usize, u32> {
    (1..=64)
        .contains(&variables)
        .then_some(variables as usize)
        .ok_or(1)
}

/// Question 1 of the maxima: one for each variable, each 1 to 32,767.
fn read_maxima(variables: usize, maxima: &[u32]) -> Result<Vec<i32>, u32> {
    let canonical = maxima.iter().all(|m| (1..=32_767).contains(m));
    if maxima.len() != variables || !canonical {
        return Err(1);
    }
    Ok(maxima.iter().map(|m| *m as i32).collect())
}

/// Question 5. Update doesn't ask it, since it changes the maxima in place.
fn fits(words: Vec<u32>, work: &Work) -> Answer {
    if work.leaf == Leaf::Update || words.len() <= work.room {
        Ok(words)
    } else {
        Err(5)
    }
}

/// One line: name, variables and room, then each operand after a colon, then
/// the expected words after `=` or the refusal after `!`.
pub fn vector(work: &Work, answer: &Answer) -> String {
    let head = format!("{} {:x} {:x}", work.leaf.name(), work.variables, work.room);
    let operands = match &work.operands {
        Operands::Two(a, b) => format!("{} :{}", Hex(a), Hex(b)),
        Operands::Masked { maxima, monomial } => format!("{} :{}", Hex(maxima), Hex(monomial)),
        Operands::Grown { maxima, percentage } => format!("{} : {percentage:08x}", Hex(maxima)),
        Operands::Masks(a, b) => format!(" {a:08x} : {b:08x}"),
    };
    match answer {
        Ok(words) => format!("{head} :{operands} ={}", Hex(words)),
        Err(number) => format!("{head} :{operands} ! {number}"),
    }
}

/// Words as eight hex digits each, with a space before each.
struct Hex<'a>(&'a [u32]);

impl fmt::Display for Hex<'_> {
    fn fmt(&self, f: &mut fmt::Formatter<'_>) -> fmt::Result {
        self.0.iter().try_for_each(|word| write!(f, " {word:08x}"))
    }
}
