//! Runs call lists on the original.
//!
//! It has a reader of its own, so that the questions at the door have two
//! opinions as well.

use std::{
    any::Any,
    cell::Cell,
    iter::Copied,
    ops::RangeInclusive,
    panic::{self, AssertUnwindSafe},
    slice,
    sync::Once,
};

use original::oracle::{monomial, Basis, Maxima, Monomial, Syzygies, Var};

use crate::{
    model::{query::Panic, Kind, Opening},
    order::Order,
    words::{
        calls, found, kind, monomial_words, payload, word, ANSWER, CALL, END, INDEX,
        RATIO_VARIABLE, REFUSAL, SINGULAR, VARIABLE,
    },
};

/// An index of the original.
///
/// A search takes the nodes that it visits out of the tree and puts them back
/// after, so a panic leaves the tree without them. The calls served are kept
/// and are all made again on a new index after a panic.
pub struct Original<'a> {
    opening: &'a Opening,
    index: Index,
    served: Vec<&'a [u32]>,
    entries: usize,
}

enum Index {
    Monomial(Syzygies<Order>),
    Ratio(Basis<Order>),
}

impl Index {
    fn open(opening: &Opening) -> Self {
        match opening.kind {
            Kind::Monomial => Index::Monomial(Syzygies::new(&opening.maxima)),
            Kind::Ratio => Index::Ratio(Basis::new(&opening.maxima)),
        }
    }
}

impl<'a> Original<'a> {
    pub fn open(opening: &'a Opening) -> Self {
        Self {
            opening,
            index: Index::open(opening),
            served: vec![],
            entries: 0,
        }
    }

    /// Serves one call, given from its kind 6 word to its end. After a panic
    /// the index is as it was before the call.
    pub fn call(&mut self, call: &'a [u32]) -> Result<u32, Panic> {
        let body = match self.question(call) {
            Ok(body) => body,
            Err(number) => return Ok(word(REFUSAL, number)),
        };
        match catch(|| self.serve(payload(call[0]), &body)) {
            Ok(payload) => {
                self.served.push(call);
                Ok(word(ANSWER, payload))
            }
            Err(panic) => {
                self.replay();
                Err(panic)
            }
        }
    }

    fn replay(&mut self) {
        let served = std::mem::take(&mut self.served);
        *self = Self::open(self.opening);
        for call in served {
            self.call(call).expect("a call that was served before");
        }
    }

    /// Questions 6, 7 and 8.
    fn question(&self, call: &[u32]) -> Result<Body, u32> {
        use Part::*;
        let number = payload(call[0]);
        let form: &[Part] = match (self.opening.kind, number) {
            (Kind::Monomial, 0 | 1) => &[Product],
            (Kind::Ratio, 3 | 4) => &[SignIndex, Quotient, Product],
            (Kind::Ratio, 5) => &[SignIndex, Product],
            (Kind::Ratio, 2 | 6) => &[SignIndex, Product, Product],
            _ => return Err(6),
        };
        let body = Body::read(&call[1..], form, self.opening.maxima.len()).ok_or(7u32)?;
        if matches!(number, 0 | 2) && self.entries >= self.opening.capacity {
            return Err(8);
        }
        Ok(body)
    }

    /// The payload of the answer to a call that passed the questions.
    fn serve(&mut self, number: u32, body: &Body) -> u32 {
        let idx = body.index;
        let last = body.last();
        match (&mut self.index, number) {
            (Index::Monomial(index), 0) => {
                index.insert(last);
                self.count_entry()
            }
            (Index::Monomial(index), 1) => index.contains_divisor(&last).into(),
            (Index::Ratio(index), 2) => {
                index.insert(idx, body.first(), last);
                self.count_entry()
            }
            (Index::Ratio(index), 3) => match index.find_a_reducer(idx, body.first(), &last) {
                Some((number, true)) => found(Some(number)) + SINGULAR,
                reducer => found(reducer.map(|(number, _)| number)),
            },
            (Index::Ratio(index), 4) => {
                found(index.find_high_base_divisor(idx, body.first(), &last))
            }
            (Index::Ratio(index), 5) => found(index.find_low_base_divisor(idx, last)),
            (Index::Ratio(index), 6) => index
                .test_singular_criterion(idx, body.first(), &last)
                .into(),
            _ => unreachable!("question 6"),
        }
    }

    /// The number of an entry that was just inserted.
    fn count_entry(&mut self) -> u32 {
        self.entries += 1;
        self.entries as u32 - 1
    }

    /// The calls served so far.
    pub fn served(&self) -> &[&'a [u32]] {
        &self.served
    }

    pub fn maxima(&self) -> &Maxima {
        match &self.index {
            Index::Monomial(index) => index.maxima(),
            Index::Ratio(index) => index.maxima(),
        }
    }

    /// Writes the tree as the words of `original::oracle::shown`.
    pub fn show(&mut self, words: &mut Vec<u32>) {
        match &mut self.index {
            Index::Monomial(index) => index.show(words),
            Index::Ratio(index) => index.show(words),
        }
    }

    /// The label of each entry; a monomial index has none.
    pub fn labels(&self) -> Vec<u32> {
        match &self.index {
            Index::Monomial(_) => vec![],
            Index::Ratio(index) => index.labels(),
        }
    }

    /// How often labels were dealt afresh.
    pub fn rebuilds(&self) -> usize {
        match &self.index {
            Index::Monomial(_) => 0,
            Index::Ratio(index) => index.rebuilds(),
        }
    }

    /// The listing of a monomial index, which ends it.
    pub fn into_listing(self) -> Option<Vec<u32>> {
        let Index::Monomial(index) = self.index else {
            return None;
        };
        let entries = index.to_vec().into_iter();
        Some(entries.flat_map(monomial_words).collect())
    }
}

/// Runs a whole list. A call in which the original panics has no answer.
pub fn original_run(opening: &Opening, list: &[u32]) -> Result<Vec<Result<u32, Panic>>, u32> {
    match list.first() {
        Some(first) if kind(*first) != CALL => Err(4),
        _ => {
            let mut index = Original::open(opening);
            Ok(calls(list).map(|call| index.call(call)).collect())
        }
    }
}

thread_local! {
    /// Set while a panic of the original is no news.
    static QUIET: Cell<bool> = const { Cell::new(false) };
}

/// Runs the original's code and catches the two panics that document 01 names.
fn catch<T>(f: impl FnOnce() -> T) -> Result<T, Panic> {
    static HOOK: Once = Once::new();
    HOOK.call_once(|| {
        let before = panic::take_hook();
        panic::set_hook(Box::new(move |info| {
            if !QUIET.get() {
                before(info);
            }
        }));
    });

    QUIET.set(true);
    let result = panic::catch_unwind(AssertUnwindSafe(f));
    QUIET.set(false);
    result.map_err(which_panic)
}

/// Tells a panic by its message; one that is neither of the two goes on.
fn which_panic(panic: Box<dyn Any + Send>) -> Panic {
    let message = match panic.downcast_ref::<String>() {
        Some(message) => message,
        None => *panic.downcast_ref::<&str>().unwrap_or(&""),
    };
    if message.contains("does not support repeated elements") {
        Panic::RepeatedElements
    } else if message.contains("poly_ref.sign_to_lm_ratio > *s_lm_ratio") {
        Panic::NotAbove
    } else {
        panic::resume_unwind(panic)
    }
}

/// What a body is made of.
#[derive(Clone, Copy)]
enum Part {
    SignIndex,
    Quotient,
    Product,
}

/// A body as read: an index, 0 if it has none, and its monomials and ratios.
struct Body {
    index: u32,
    products: Vec<Vec<Var>>,
}

impl Body {
    /// Reads the words as the given parts and nothing more.
    fn read(words: &[u32], form: &[Part], variables: usize) -> Option<Self> {
        let mut words = words.iter().copied();
        let mut body = Body {
            index: 0,
            products: vec![],
        };
        for part in form {
            match part {
                Part::SignIndex => {
                    body.index = words.next().filter(|w| kind(*w) == INDEX).map(payload)?;
                }
                Part::Quotient => body.products.push(read_quotient(&mut words, variables)?),
                Part::Product => body.products.push(read_product(&mut words, variables)?),
            }
        }
        words.next().is_none().then_some(body)
    }

    fn first(&self) -> Monomial<Order> {
        monomial(&self.products[0])
    }

    fn last(&self) -> Monomial<Order> {
        monomial(&self.products[self.products.len() - 1])
    }
}

/// Words that are still to be read.
pub type Words<'a> = Copied<slice::Iter<'a, u32>>;

/// Reads a monomial.
pub fn read_product(words: &mut Words, variables: usize) -> Option<Vec<Var>> {
    read_vars(words, variables, VARIABLE, 0, 1..=32_767)
}

/// Reads a ratio.
pub fn read_quotient(words: &mut Words, variables: usize) -> Option<Vec<Var>> {
    read_vars(words, variables, RATIO_VARIABLE, 32_768, -32_767..=32_767)
}

fn read_vars(
    words: &mut Words,
    variables: usize,
    variable_kind: u32,
    bias: i32,
    powers: RangeInclusive<i32>,
) -> Option<Vec<Var>> {
    let mut vars: Vec<Var> = vec![];
    loop {
        let word = words.next()?;
        if word == vars.len() as u32 | END << 28 {
            return Some(vars);
        }
        let id = (word >> 16 & 0xFFF) as u16;
        let power = (word & 0xFFFF) as i32 - bias;
        let falls = vars.last().is_none_or(|(before, _)| id < *before);
        let canonical = kind(word) == variable_kind
            && usize::from(id) < variables
            && falls
            && power != 0
            && powers.contains(&power);
        if !canonical {
            return None;
        }
        vars.push((id, power));
    }
}
