//! Runs of the label map: opening, values, rebuilds, and damaged images.
//!
//! The port works on an image that stands in a [`Memory`]. Original and model
//! keep maps of their own and must give the same numbers; the model says what
//! every byte is afterwards. A damaged image is judged by the model, and where
//! it is still sound the model goes on from it; the original cannot be given
//! labels.

use std::{collections::BTreeMap, fmt};

use divisor_index::doors;

use super::{
    bytes,
    change::{changes, Change},
    label_samples::{openings, small_runs},
    memory::Memory,
};
use crate::{
    leaves::labels::OriginalMap,
    model::label_map::{size, LabelMap},
    words::{word, INDEX},
};

/// A map, opened with these, and what is done to it.
#[derive(Debug, Clone)]
pub struct Run {
    pub variables: u32,
    pub capacity: u32,
    /// Bytes lent past the image's length.
    pub spare: usize,
    pub steps: Vec<Step>,
}

#[derive(Debug, Clone)]
pub enum Step {
    Ask(Value),
    Rebuild,
    /// The image is changed, asked for a value, rebuilt, and put back.
    Damaged(Change, Value),
}

/// A value as it is lent.
#[derive(Debug, Clone)]
pub struct Value {
    pub index: u32,
    pub ratio: Vec<u8>,
}

/// One call of a door.
#[derive(Clone, Copy)]
enum Call<'a> {
    Open(u32, u32),
    Ask(&'a Value),
    Rebuild,
}

/// How many calls were compared, and what they returned: refusals by number,
/// 0 for served.
#[derive(Debug, Default)]
pub struct Tally {
    pub openings: BTreeMap<u32, u64>,
    pub asked: BTreeMap<u32, u64>,
    pub rebuilt: u64,
    /// On damaged images.
    pub damaged: BTreeMap<u32, u64>,
}

impl Tally {
    /// Steps of runs.
    pub fn steps(&self) -> u64 {
        self.asked.values().sum::<u64>() + self.rebuilt
    }
}

impl fmt::Display for Tally {
    fn fmt(&self, f: &mut fmt::Formatter<'_>) -> fmt::Result {
        write!(
            f,
            "openings {:?}, asked {:?}, rebuilt {}, on damaged images {:?}",
            self.openings, self.asked, self.rebuilt, self.damaged
        )
    }
}

/// What a number returned says: a refusal, or 0.
fn refusal(number: u64) -> u32 {
    (number >> 32) as u32
}

/// An answer as the doors of 64 bits return it.
fn number(answer: Result<u32, u32>) -> u64 {
    answer.map_or_else(|refusal| u64::from(refusal) << 32, u64::from)
}

/// Opens a map in a buffer of so many bytes, filled with a pattern.
pub fn compare_opening(
    variables: u32,
    capacity: u32,
    buffer: usize,
    tally: &mut Tally,
) -> Result<Option<(LabelMap, Vec<u8>)>, String> {
    let length = doors::divisor_index_fast_compare_length(variables, capacity);
    let expected = size(variables, capacity).map(|size| 4 * size as u32);
    let bounded = expected.is_ok_and(|length| {
        let most = 256 * (variables + 2) * (capacity + 1);
        length > 16 && length <= most
    });
    if length != expected.unwrap_or_else(|refusal| refusal) || expected.is_ok() != bounded {
        return Err(format!(
            "length for {variables} and {capacity}: {length:x}, expected {expected:x?}"
        ));
    }

    let before = vec![0xEE; buffer];
    let call = Call::Open(variables, capacity);
    let map = LabelMap::open(variables, capacity, buffer);
    let refused = map.as_ref().err().copied().unwrap_or(0);
    let after = map.ok().map(|map| (map.words(), map));
    let image = agree(
        &before,
        call,
        &[u64::from(refused)],
        after.as_ref().map(|(words, _)| &words[..]),
    )?;
    *tally.openings.entry(refused).or_default() += 1;
    Ok(after.map(|(_, map)| (map, image)))
}

/// Compares openings, and small maps with every damage.
pub fn compare_small(tally: &mut Tally) -> Result<(), String> {
    for (variables, capacity, buffer) in openings() {
        compare_opening(variables, capacity, buffer, tally)?;
    }
    for (run, values) in small_runs() {
        let image = compare_run(&run, tally)?;
        let length = image.len() - run.spare;
        for change in changes(length / 4) {
            for value in &values {
                compare_damaged(&image, length, change, value, tally)
                    .map_err(|difference| format!("{run:x?}, {change:x?}: {difference}"))?;
            }
        }
    }
    Ok(())
}

/// Compares every step of a run, and returns the image after it.
pub fn compare_run(run: &Run, tally: &mut Tally) -> Result<Vec<u8>, String> {
    let length = 4 * size(run.variables, run.capacity).expect("as at opening");
    let buffer = length + run.spare;
    let opened = compare_opening(run.variables, run.capacity, buffer, tally)?;
    let (mut model, mut image) = opened.expect("enough room");
    let mut original = OriginalMap::new(run.variables as usize, run.capacity as usize);
    for (at, step) in run.steps.iter().enumerate() {
        let compared = match step {
            Step::Ask(value) => ask(&image, value, &mut model, &mut original, tally),
            Step::Rebuild => rebuild(&image, &mut model, &mut original, tally),
            Step::Damaged(change, value) => {
                compare_damaged(&image, length, *change, value, tally).map(|()| image.clone())
            }
        };
        image = compared.map_err(|difference| {
            format!(
                "{} variables, capacity {}, step {at} {step:x?}: {difference}",
                run.variables, run.capacity
            )
        })?;
    }
    same_labels(&model, &mut original)?;
    Ok(image)
}

fn ask(
    image: &[u8],
    value: &Value,
    model: &mut LabelMap,
    original: &mut OriginalMap,
    tally: &mut Tally,
) -> Result<Vec<u8>, String> {
    let by_original = number(ask_original(original, value));
    let by_model = number(ask_model(model, value));
    let after = (refusal(by_model) == 0).then(|| model.words());
    let image = agree(
        image,
        Call::Ask(value),
        &[by_original, by_model],
        after.as_deref(),
    )?;
    *tally.asked.entry(refusal(by_model)).or_default() += 1;
    Ok(image)
}

fn rebuild(
    image: &[u8],
    model: &mut LabelMap,
    original: &mut OriginalMap,
    tally: &mut Tally,
) -> Result<Vec<u8>, String> {
    original.rebuild();
    model.rebuild();
    same_labels(model, original)?;
    tally.rebuilt += 1;
    agree(image, Call::Rebuild, &[0], Some(&model.words()))
}

fn ask_original(map: &mut OriginalMap, value: &Value) -> Result<u32, u32> {
    if value.index >= 1 << 28 {
        return Err(7);
    }
    let index = word(INDEX, value.index);
    map.ask(&[&[index], &lent_ratio(value)[..]].concat())
}

fn ask_model(map: &mut LabelMap, value: &Value) -> Result<u32, u32> {
    map.get_comparer(value.index, &lent_ratio(value))
}

/// The words of a lent ratio; none where they are no whole number.
fn lent_ratio(value: &Value) -> Vec<u32> {
    super::words(&value.ratio)
}

/// Every label that original and model hold.
fn same_labels(model: &LabelMap, original: &mut OriginalMap) -> Result<(), String> {
    let (by_original, by_model) = (original.labels(), model.labels());
    match by_original == by_model {
        true => Ok(()),
        false => Err(format!("labels {by_original:x?}, model {by_model:x?}")),
    }
}

/// Asks a changed image for a value, and rebuilds another copy of it.
pub fn compare_damaged(
    image: &[u8],
    length: usize,
    change: Change,
    value: &Value,
    tally: &mut Tally,
) -> Result<(), String> {
    let damaged = change.applied(image, length);
    let (words, _) = damaged.as_chunks();
    let words: Vec<u32> = words.iter().map(|word| u32::from_le_bytes(*word)).collect();
    let map = LabelMap::read(&words);
    for call in [Call::Ask(value), Call::Rebuild] {
        let mut map = map.clone();
        let answered = match (&mut map, call) {
            (None, Call::Ask(_)) => number(Err(3)),
            (None, _) => 3,
            (Some(map), Call::Ask(value)) => number(ask_model(map, value)),
            (Some(map), _) => {
                map.rebuild();
                0
            }
        };
        let after = map.map(|map| map.words());
        agree(&damaged, call, &[answered], after.as_deref())?;
        let refused = match call {
            Call::Ask(_) => refusal(answered),
            _ => answered as u32,
        };
        *tally.damaged.entry(refused).or_default() += 1;
    }
    Ok(())
}

/// The image after a call of the port, which must return each of these numbers
/// and leave these words at the front of the image and every other byte as it
/// was.
fn agree(
    image: &[u8],
    call: Call,
    numbers: &[u64],
    after: Option<&[u32]>,
) -> Result<Vec<u8>, String> {
    let (returned, mut memory) = by_port(image, call);
    let mut expected = lend(image, call);
    if let Some(words) = after {
        let words = bytes(words);
        expected.split().0[..words.len()].copy_from_slice(&words);
    }
    if numbers.iter().any(|number| *number != returned) {
        return Err(format!(
            "port {returned:x}, original and model {numbers:x?}"
        ));
    }
    let differing = |(port, model): (&u8, &u8)| port != model;
    let mut pairs = memory.bytes.iter().zip(&expected.bytes);
    if let Some(at) = pairs.position(differing) {
        return Err(format!("returned {returned:x}, byte {at} differs"));
    }
    Ok(memory.split().0.to_vec())
}

fn by_port(image: &[u8], call: Call) -> (u64, Memory) {
    let mut memory = lend(image, call);
    let (image, ratio, _) = memory.split();
    let number = match call {
        Call::Open(variables, capacity) => {
            doors::divisor_index_fast_compare_open(variables, capacity, image).into()
        }
        Call::Ask(value) => {
            doors::divisor_index_fast_compare_get_comparer(image, value.index, ratio)
        }
        Call::Rebuild => doors::divisor_index_fast_compare_rebuild(image).into(),
    };
    (number, memory)
}

fn lend(image: &[u8], call: Call) -> Memory {
    let ratio = match call {
        Call::Ask(value) => &value.ratio[..],
        _ => &[],
    };
    Memory::new(image, ratio, 0)
}
