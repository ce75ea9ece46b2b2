//! Question 3 of an index image, asked of port and model by the check, by run and
//! by list.
//!
//! An image stands in a [`Memory`], of which the check may change no byte. The
//! model says which rules the image breaks, so that a [`Tally`] shows for each
//! rule how many images are refused for it alone: one of the two that did without
//! the rule would be noticed there.

pub mod cases;
pub mod chains;
pub mod edits;
mod lent;
pub mod samples;
pub mod stack;
pub mod states;

use std::{collections::BTreeMap, fmt};

use divisor_index::doors;

use crate::{
    doors::memory::Memory,
    model::soundness::{read, Reading, Rule},
};

/// Zeros that stand behind an image that is cut.
const BEHIND: usize = 400;

/// How many images were compared, and why they were refused.
#[derive(Debug)]
pub struct Tally {
    pub sound: u64,
    pub refused: u64,
    /// How often run and list returned each number.
    numbers: [BTreeMap<u32, u64>; 2],
    /// For each rule.
    counts: Vec<Count>,
}

/// The refusals of images that break a rule, and of those that break no other.
#[derive(Debug, Clone, Copy, Default)]
pub struct Count {
    pub broken: u64,
    pub alone: u64,
}

impl Default for Tally {
    fn default() -> Self {
        Tally {
            sound: 0,
            refused: 0,
            numbers: Default::default(),
            counts: vec![Count::default(); Rule::ALL.len()],
        }
    }
}

impl Tally {
    pub fn count(&mut self, reading: &Reading) {
        match reading.is_sound() {
            true => self.sound += 1,
            false => self.refused += 1,
        }
        for rule in reading.broken.iter() {
            self.counts[rule as usize].broken += 1;
        }
        if let Some(rule) = reading.only() {
            self.counts[rule as usize].alone += 1;
        }
    }

    fn count_numbers(&mut self, numbers: [u32; 2]) {
        for (counts, number) in self.numbers.iter_mut().zip(numbers) {
            *counts.entry(number).or_default() += 1;
        }
    }

    pub fn of(&self, rule: Rule) -> Count {
        self.counts[rule as usize]
    }

    /// The rules that could be left out and nobody would notice.
    pub fn unnoticed(&self) -> Vec<Rule> {
        let rules = Rule::ALL.iter().copied();
        rules.filter(|rule| self.of(*rule).alone == 0).collect()
    }
}

impl fmt::Display for Tally {
    fn fmt(&self, f: &mut fmt::Formatter<'_>) -> fmt::Result {
        let [run, list] = &self.numbers;
        write!(
            f,
            "{} sound, {} refused, numbers of run {run:?}, of list {list:?}",
            self.sound, self.refused
        )
    }
}

/// Compares port and model on these bytes: the check, a list and a listing.
pub fn compare(image: &[u8], tally: &mut Tally) -> Result<(), String> {
    let reading = read(image);
    let expected = match reading.is_sound() {
        true => 0,
        false => 3,
    };
    // What is not lent must not count, even where it would make the image whole.
    let behind: &[usize] = match reading.broken.has(Rule::Length) {
        true => &[0, BEHIND],
        false => &[0],
    };
    for behind in behind {
        let number = ask(image, *behind)?;
        if number != expected {
            return Err(format!(
                "port {number}, model {expected}, broken {:?}, {behind} zeros behind, {}",
                reading.broken,
                show(image)
            ));
        }
        let numbers = lent::compare(image, *behind, &reading).map_err(|difference| {
            let broken = reading.broken;
            format!("{difference}, broken {broken:?}, {}", show(image))
        })?;
        tally.count_numbers(numbers);
    }
    tally.count(&reading);
    Ok(())
}

/// What the port returns for an image with so many zeros behind what is lent.
fn ask(image: &[u8], behind: usize) -> Result<u32, String> {
    let whole = [image, &vec![0; behind]].concat();
    let mut memory = Memory::new(&whole, &[], 0);
    let number = doors::divisor_index_check(&memory.split().0[..image.len()]);
    match memory.bytes == Memory::new(&whole, &[], 0).bytes {
        true => Ok(number),
        false => Err(format!("a byte was changed, {}", show(image))),
    }
}

/// The length, and the words up to the last that is not 0.
fn show(image: &[u8]) -> String {
    let (words, _) = image.as_chunks();
    let mut words: Vec<u32> = words.iter().map(|word| u32::from_le_bytes(*word)).collect();
    while words.last() == Some(&0) {
        words.pop();
    }
    format!("{} bytes: {words:x?}", image.len())
}
