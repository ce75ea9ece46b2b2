//! The port's doors on the operations below the index, byte by byte.
//!
//! A [`Lent`] is what a caller in C lends. Its bytes are laid out in one
//! [`Memory`] with gaps of pattern between them, the port is called there, and
//! the number returned and all of the memory afterwards must be what original
//! and model say of the same words. [`labels`] does so with runs of the label
//! map.

pub mod change;
pub mod label_samples;
pub mod labels;
pub mod memory;
pub mod samples;

use std::fmt;

use divisor_index::doors;

use self::memory::Memory;
use crate::leaves::{by_model, by_original, Answer, Leaf, Operands, Work};

/// The bytes and numbers lent to a door.
#[derive(Debug, Clone)]
pub struct Lent {
    pub leaf: Leaf,
    pub variables: u32,
    /// A monomial, a ratio, maxima, or a mask.
    pub first: Vec<u8>,
    /// A monomial, a ratio, or a mask; empty for growth.
    pub second: Vec<u8>,
    /// For growth alone.
    pub percentage: u8,
    /// Bytes of room for the answer. `Update` and `MaskDivides` use none.
    pub room: usize,
}

/// What a door returned, and every byte after it.
#[derive(Debug, PartialEq, Eq)]
pub struct Outcome {
    pub number: u32,
    pub memory: Vec<u8>,
}

/// Three outcomes that must be one.
#[derive(Debug)]
pub struct Difference {
    pub lent: Lent,
    pub port: Outcome,
    pub original: Outcome,
    pub model: Outcome,
}

/// The number returned, where port, original and model agree.
pub fn compare(lent: &Lent) -> Result<u32, Box<Difference>> {
    let port = by_port(lent);
    let work = lent.work();
    let original = expected(lent, &by_original::answer(&work));
    let model = expected(lent, &by_model::answer(&work));
    if port == original && port == model {
        return Ok(port.number);
    }
    Err(Box::new(Difference {
        lent: lent.clone(),
        port,
        original,
        model,
    }))
}

fn by_port(lent: &Lent) -> Outcome {
    let mut memory = Memory::new(&lent.first, &lent.second, lent.room);
    let v = lent.variables;
    let (first, second, out) = memory.split();
    let number = match lent.leaf {
        Leaf::Gcd => doors::divisor_index_monomial_gcd(v, first, second, out),
        Leaf::WholeDivision => doors::divisor_index_monomial_whole_division(v, first, second, out),
        Leaf::Divides => doors::divisor_index_monomial_divides(v, first, second, out),
        Leaf::FractionDivision => {
            doors::divisor_index_monomial_fraction_division(v, first, second, out)
        }
        Leaf::Mul => doors::divisor_index_monomial_mul(v, first, second, out),
        Leaf::Eq => doors::divisor_index_monomial_eq(v, first, second, out),
        Leaf::Ord => doors::divisor_index_monomial_cmp(v, first, second, out),
        Leaf::EqRatio => doors::divisor_index_ratio_eq(v, first, second, out),
        Leaf::OrdRatio => doors::divisor_index_ratio_cmp(v, first, second, out),
        Leaf::Mask => doors::divisor_index_divmask_mask(v, first, second, out),
        Leaf::MaskDivides => doors::divisor_index_divmask_divides(mask(first), mask(second)),
        Leaf::Update => doors::divisor_index_divmask_update(v, first, second),
        Leaf::Growth => doors::divisor_index_divmask_growth(v, first, lent.percentage, out),
    };
    Outcome {
        number,
        memory: memory.bytes,
    }
}

/// What the port must do where an oracle answers so.
fn expected(lent: &Lent, answer: &Answer) -> Outcome {
    let mut memory = Memory::new(&lent.first, &lent.second, lent.room);
    let number = match answer {
        Ok(words) if lent.leaf == Leaf::MaskDivides => words[0],
        Ok(words) => {
            let (first, _, out) = memory.split();
            let written = match lent.leaf {
                Leaf::Update => first,
                _ => out,
            };
            let answer = bytes(words);
            written[..answer.len()].copy_from_slice(&answer);
            0
        }
        Err(number) => *number,
    };
    Outcome {
        number,
        memory: memory.bytes,
    }
}

impl fmt::Display for Difference {
    fn fmt(&self, f: &mut fmt::Formatter<'_>) -> fmt::Result {
        let Lent {
            leaf,
            variables,
            first,
            second,
            percentage,
            room,
        } = &self.lent;
        writeln!(
            f,
            "{leaf:?}, {variables} variables, percentage {percentage}, room {room}"
        )?;
        writeln!(f, "lent {first:02x?} and {second:02x?}")?;
        for (name, outcome) in [
            ("port", &self.port),
            ("original", &self.original),
            ("model", &self.model),
        ] {
            let Outcome { number, memory } = outcome;
            writeln!(f, "{name} returns {number}, bytes after {memory:02x?}")?;
        }
        Ok(())
    }
}

impl Lent {
    /// The work as a caller in C lends it.
    pub fn new(work: &Work) -> Self {
        let (first, second, percentage) = match &work.operands {
            Operands::Two(a, b) => (bytes(a), bytes(b), 0),
            Operands::Masked { maxima, monomial } => (bytes(maxima), bytes(monomial), 0),
            Operands::Grown { maxima, percentage } => (bytes(maxima), vec![], *percentage),
            Operands::Masks(a, b) => (bytes(&[*a]), bytes(&[*b]), 0),
        };
        Lent {
            leaf: work.leaf,
            variables: work.variables,
            first,
            second,
            percentage,
            room: 4 * work.room,
        }
    }

    /// The same work for original and model, who know words alone.
    pub fn work(&self) -> Work {
        let (first, second) = (words(&self.first), words(&self.second));
        Work {
            leaf: self.leaf,
            variables: self.variables,
            room: self.room / 4,
            operands: match self.leaf {
                Leaf::Mask | Leaf::Update => Operands::Masked {
                    maxima: first,
                    monomial: second,
                },
                Leaf::Growth => Operands::Grown {
                    maxima: first,
                    percentage: self.percentage,
                },
                Leaf::MaskDivides => Operands::Masks(first[0], second[0]),
                _ => Operands::Two(first, second),
            },
        }
    }
}

fn bytes(words: &[u32]) -> Vec<u8> {
    words.iter().flat_map(|word| word.to_le_bytes()).collect()
}

/// The words of the bytes. Where they are no whole number of words there are
/// none, which no question takes either.
fn words(bytes: &[u8]) -> Vec<u32> {
    let (words, []) = bytes.as_chunks() else {
        return vec![];
    };
    words.iter().map(|word| u32::from_le_bytes(*word)).collect()
}

fn mask(bytes: &[u8]) -> u32 {
    words(bytes)[0]
}
