//! Reads a call: questions 6 and 7.

use super::{
    mutation::{Mutation, Rules},
    powers::{Powers, Ratio},
    Kind,
};
use crate::words::{
    kind, payload, CALL, END, INDEX, MAX_POWER, RATIO_BIAS, RATIO_VARIABLE, VARIABLE,
};

/// A call whose number is served and whose body is as it must be.
#[derive(Debug, Clone)]
pub enum Call {
    InsertMonomial(Powers),
    Insert {
        index: u32,
        sign: Powers,
        lm: Powers,
    },
    Search(Search),
}

#[derive(Debug, Clone)]
pub enum Search {
    Contained(Powers),
    Reducer {
        ratio: Ratio,
        lm: Powers,
    },
    High {
        ratio: Ratio,
        lm: Powers,
    },
    Low {
        index: u32,
        sign: Powers,
    },
    Singular {
        index: u32,
        sign: Powers,
        lm: Powers,
    },
}

impl Call {
    /// Reads a call's words, from its kind 6 word to its end.
    pub fn read(
        words: &[u32],
        index_kind: Kind,
        variables: usize,
        rules: Rules,
    ) -> Result<Self, u32> {
        let number = payload(words[0]);
        let served = match index_kind {
            Kind::Monomial => 0..=1,
            Kind::Ratio => 2..=6,
        };
        let mut body = Body {
            rest: &words[1..],
            variables,
            rules,
        };
        if rules.has(Mutation::BodyBeforeNumber) && body.call(number).is_none() {
            return Err(7);
        }
        if !served.contains(&number) {
            return Err(6);
        }
        body.rest = &words[1..];
        let call = body.call(number).ok_or(7u32)?;
        if body.rest.is_empty() || rules.has(Mutation::RestOfBodyIgnored) {
            Ok(call)
        } else {
            Err(7)
        }
    }
}

/// The words of a body that are not yet read.
struct Body<'a> {
    rest: &'a [u32],
    variables: usize,
    rules: Rules,
}

impl Body<'_> {
    fn call(&mut self, number: u32) -> Option<Call> {
        Some(match number {
            0 => Call::InsertMonomial(self.monomial()?),
            1 => Call::Search(Search::Contained(self.monomial()?)),
            2 => Call::Insert {
                index: self.index()?,
                sign: self.monomial()?,
                lm: self.monomial()?,
            },
            3 => Call::Search(Search::Reducer {
                ratio: self.ratio()?,
                lm: self.monomial()?,
            }),
            4 => Call::Search(Search::High {
                ratio: self.ratio()?,
                lm: self.monomial()?,
            }),
            5 => Call::Search(Search::Low {
                index: self.index()?,
                sign: self.monomial()?,
            }),
            6 => Call::Search(Search::Singular {
                index: self.index()?,
                sign: self.monomial()?,
                lm: self.monomial()?,
            }),
            _ => return None,
        })
    }

    fn index(&mut self) -> Option<u32> {
        let (first, rest) = self.rest.split_first()?;
        self.rest = rest;
        (kind(*first) == INDEX).then_some(payload(*first))
    }

    fn monomial(&mut self) -> Option<Powers> {
        let (powers, rest) = read_monomial(self.rest, self.variables, self.rules)?;
        self.rest = rest;
        Some(powers)
    }

    fn ratio(&mut self) -> Option<Ratio> {
        let index = self.index()?;
        let (monomial, rest) = read_ratio(self.rest, self.variables, self.rules)?;
        self.rest = rest;
        Some(Ratio { index, monomial })
    }
}

/// The canonical monomial at the head of the words, and the words after it.
pub fn read_monomial(words: &[u32], variables: usize, rules: Rules) -> Option<(Powers, &[u32])> {
    read_product(words, variables, VARIABLE, rules, |field| {
        (1..=MAX_POWER).contains(&field).then_some(field)
    })
}

/// The canonical ratio at the head of the words, and the words after it.
pub fn read_ratio(words: &[u32], variables: usize, rules: Rules) -> Option<(Powers, &[u32])> {
    read_product(words, variables, RATIO_VARIABLE, rules, |field| {
        let power = field - RATIO_BIAS;
        (power != 0 && power.abs() <= MAX_POWER).then_some(power)
    })
}

/// The value that is the whole of the words: its index and its ratio.
pub fn read_value(words: &[u32], variables: usize) -> Option<Ratio> {
    let mut body = Body {
        rest: words,
        variables,
        rules: Rules::document_01(),
    };
    let ratio = body.ratio()?;
    body.rest.is_empty().then_some(ratio)
}

fn read_product(
    words: &[u32],
    variables: usize,
    variable_kind: u32,
    rules: Rules,
    power: impl Fn(i32) -> Option<i32>,
) -> Option<(Powers, &[u32])> {
    let count = words
        .iter()
        .take_while(|word| kind(**word) == variable_kind)
        .count();
    let (end, rest) = words[count..].split_first()?;
    let counted = payload(*end) as usize == count || rules.has(Mutation::CountIgnored);
    if kind(*end) != END || !counted {
        return None;
    }

    let mut powers = Powers::one(variables);
    let mut bound = variables;
    for word in &words[..count] {
        let id = (payload(*word) >> 16) as usize;
        if id >= bound {
            return None;
        }
        powers.0[id] = power((word & 0xFFFF) as i32)?;
        bound = id + usize::from(rules.has(Mutation::EqualIdsTaken));
    }
    Some((powers, rest))
}

/// The calls of a list, each from its kind 6 word to before the next one.
pub fn split(list: &[u32]) -> Vec<&[u32]> {
    let starts: Vec<usize> = (0..list.len())
        .filter(|at| kind(list[*at]) == CALL)
        .collect();
    let ends = starts.iter().skip(1).copied().chain([list.len()]);
    starts.iter().zip(ends).map(|(a, b)| &list[*a..b]).collect()
}
