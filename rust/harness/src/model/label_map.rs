//! The label map with its image: header, rows in order of arrival, and the row
//! numbers in rising order of value (crates/fast_compare/specs/Layout.antt).

use super::{calls::read_ratio, labels::Labels, mutation::Rules, powers::Ratio};
use crate::words::{kind, payload, ratio_words, word, INDEX, MAX_CAPACITY, MAX_VARIABLES};

#[derive(Debug, Clone)]
pub struct LabelMap {
    variables: usize,
    capacity: usize,
    labels: Labels,
}

/// The first word of an image.
const LAYOUT: u32 = 1;

/// Words before the first row.
const HEADER: usize = 4;

/// Question 1, and the words of the image.
pub fn size(variables: u32, capacity: u32) -> Result<usize, u32> {
    let (variables, capacity) = (variables as usize, capacity as usize);
    let asked = (1..=MAX_VARIABLES).contains(&variables) && (1..=MAX_CAPACITY).contains(&capacity);
    match asked {
        true => Ok(HEADER + capacity * row_size(variables) + capacity),
        false => Err(1),
    }
}

/// Index, ratio with its end word, and label.
fn row_size(variables: usize) -> usize {
    variables + 3
}

impl LabelMap {
    /// Questions 1 and 2, of a buffer of so many bytes.
    pub fn open(variables: u32, capacity: u32, buffer: usize) -> Result<Self, u32> {
        if buffer < 4 * size(variables, capacity)? {
            return Err(2);
        }
        Ok(LabelMap {
            variables: variables as usize,
            capacity: capacity as usize,
            labels: Labels::new(Rules::document_01()),
        })
    }

    /// Question 3: the map whose image stands at the front of the words.
    pub fn read(words: &[u32]) -> Option<Self> {
        let (&[layout, variables, capacity, count], tables) = words.split_first_chunk()?;
        let size = size(variables, capacity).ok()?;
        if layout != LAYOUT || count > capacity || words.len() < size {
            return None;
        }
        let variables = variables as usize;
        let rows = tables.chunks(row_size(variables)).take(count as usize);
        let rows: Vec<_> = rows
            .map(|row| read_row(row, variables))
            .collect::<Option<_>>()?;

        let map = Self::of_rows(variables, capacity as usize, rows);
        let sound = map.rises() && map.words() == words[..size];
        sound.then_some(map)
    }

    /// The map with these values and labels, in order of arrival.
    pub fn of_rows(variables: usize, capacity: usize, rows: Vec<(Ratio, u32)>) -> Self {
        LabelMap {
            variables,
            capacity,
            labels: Labels::of_rows(rows, Rules::document_01()),
        }
    }

    /// No value is there twice, and labels rise with values.
    fn rises(&self) -> bool {
        let rises = |pair: &[(Ratio, u32)]| pair[0].0 != pair[1].0 && pair[0].1 < pair[1].1;
        self.labels.rows().windows(2).all(rises)
    }

    /// The image.
    pub fn words(&self) -> Vec<u32> {
        let row_size = row_size(self.variables);
        let order = HEADER + self.capacity * row_size;
        let mut words = vec![0; order + self.capacity];
        let header = [self.variables, self.capacity, self.labels.count()];
        words[0] = LAYOUT;
        for (at, number) in (1..).zip(header) {
            words[at] = number as u32;
        }
        for (number, value) in self.labels.arrived().iter().enumerate() {
            let row = &mut words[HEADER + number * row_size..][..row_size];
            let ratio = ratio_words(value.monomial.vars());
            row[0] = word(INDEX, value.index);
            row[1..][..ratio.len()].copy_from_slice(&ratio);
            row[row_size - 1] = self.labels.known(value).expect("arrived");
            let rank = self.labels.rank(value).expect("arrived");
            words[order + rank] = number as u32;
        }
        words
    }

    /// The label of each value, in order of arrival.
    pub fn labels(&self) -> Vec<u32> {
        let known = |value| self.labels.known(value).expect("arrived");
        self.labels.arrived().iter().map(known).collect()
    }

    /// Questions 7, 8 and 10.
    pub fn get_comparer(&mut self, index: u32, ratio: &[u32]) -> Result<u32, u32> {
        let read = read_ratio(ratio, self.variables, Rules::document_01());
        let (true, Some((monomial, []))) = (index < 1 << 28, read) else {
            return Err(7);
        };
        let value = Ratio { index, monomial };
        if let Some(label) = self.labels.known(&value) {
            return Ok(label);
        }
        if self.labels.count() == self.capacity {
            return Err(8);
        }
        self.labels.get(&value).ok_or(10)
    }

    pub fn rebuild(&mut self) {
        self.labels.rebuild();
    }
}

/// A row's value and label.
fn read_row(row: &[u32], variables: usize) -> Option<(Ratio, u32)> {
    let (index, rest) = row.split_first()?;
    let (label, ratio) = rest.split_last()?;
    let (monomial, unused) = read_ratio(ratio, variables, Rules::document_01())?;
    if kind(*index) != INDEX || unused.iter().any(|word| *word != 0) {
        return None;
    }
    let value = Ratio {
        index: payload(*index),
        monomial,
    };
    Some((value, *label))
}
