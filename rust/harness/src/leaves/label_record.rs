//! Steps of label runs as words, for the program crates/oracle_replay.

use super::labels::{LabelWork, OriginalMap, Step};
use crate::{
    model::{calls::read_value, label_map::LabelMap},
    words::{word, INDEX},
};

const GET_COMPARER: u32 = 13;
const REBUILD: u32 = 14;

/// A record for each step of a run of the original: its own length in words,
/// operation, index, label, refusal, the lengths of image and ratio, both of
/// them, and the image afterwards. The images hold the original's values, in
/// order of arrival, and labels.
pub fn records(work: &LabelWork) -> Vec<Vec<u32>> {
    let mut map = OriginalMap::new(work.variables, work.capacity);
    let mut records = vec![];
    for step in &work.steps {
        let before = image(&mut map, work);
        let (head, ratio) = match step {
            Step::Value(value) => {
                let answer = map.ask(value);
                // A word of another kind is no index: as a number it has more than 28 bits.
                let index = value[0].wrapping_sub(word(INDEX, 0));
                let (label, refusal) = (answer.unwrap_or(0), answer.err().unwrap_or(0));
                ([GET_COMPARER, index, label, refusal], &value[1..])
            }
            Step::Rebuild => {
                map.rebuild();
                ([REBUILD, 0, 0, 0], &[][..])
            }
        };
        let lengths = [before.len() as u32, ratio.len() as u32];
        let after = image(&mut map, work);
        let rest = [&head[..], &lengths, &before, ratio, &after].concat();
        records.push([vec![1 + rest.len() as u32], rest].concat());
    }
    records
}

fn image(map: &mut OriginalMap, work: &LabelWork) -> Vec<u32> {
    let labels = map.labels();
    let values = map.known().iter();
    let values = values.map(|value| read_value(value, work.variables).expect("a known value"));
    let rows = values.zip(labels).collect();
    LabelMap::of_rows(work.variables, work.capacity, rows).words()
}
