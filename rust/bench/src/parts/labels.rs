//! The label map on both sides: one of 1,000 values, asked for values that it
//! knows or for new ones.

use std::{collections::BTreeSet, hint::black_box};

use divisor_index::{
    doors::divisor_index_fast_compare_get_comparer as ask, fast_compare::ComparerMap,
};
use harness::{images::samples::bytes, rng::Rng, words::ratio_words};
use original::{oracle::Labels, polynomial::monomial_ordering::Grevlex};

use crate::{
    sides::{
        drawing::{draw_powers, INDICES},
        monomial, Monomial,
    },
    timing::timed,
};

const VALUES: usize = 1000;

/// Values asked for in a round. New ones are stored, so the map grows by them.
pub const ASKED: usize = 8;

/// A map, and values to ask it for.
pub struct LabelSample {
    stored: Vec<Value>,
    known: Vec<Value>,
    new: Vec<Value>,
    image: Vec<u8>,
}

#[derive(Clone)]
struct Value {
    index: u32,
    monomial: Monomial,
    words: Vec<u8>,
}

/// Which values are asked for.
#[derive(Clone, Copy)]
pub enum Asked {
    Known,
    New,
}

/// The same sample in each run.
pub fn draw(variables: usize) -> LabelSample {
    let mut rng = Rng::new(variables as u64);
    let mut stored = draw_values(variables, &mut rng);
    let new = stored.split_off(VALUES);
    let map = ComparerMap::new(variables as u32, (VALUES + ASKED) as u32);
    let mut image = map.expect("an opening").into_image();
    for value in &stored {
        ask_port(&mut image, value);
    }
    LabelSample {
        known: (0..ASKED).map(|_| rng.choose(&stored).clone()).collect(),
        stored,
        new,
        image,
    }
}

/// All of them different.
fn draw_values(variables: usize, rng: &mut Rng) -> Vec<Value> {
    let mut drawn = BTreeSet::new();
    let mut values = vec![];
    while values.len() < VALUES + ASKED {
        let ratio = draw_powers(variables, rng).over(&draw_powers(variables, rng));
        let index = rng.below(INDICES) as u32;
        let words = ratio_words(ratio.vars());
        if drawn.insert((index, words.clone())) {
            values.push(Value {
                index,
                monomial: monomial(&ratio),
                words: bytes(&words),
            });
        }
    }
    values
}

impl LabelSample {
    fn asked(&self, asked: Asked) -> &[Value] {
        match asked {
            Asked::Known => &self.known,
            Asked::New => &self.new,
        }
    }

    pub fn original(&self, asked: Asked) -> f64 {
        let mut labels = self.original_map();
        let values = self.asked(asked).to_vec();
        timed(|| {
            for value in values {
                let label = labels.get_comparer(value.index, black_box(value.monomial));
                black_box(label.expect("a label"));
            }
        })
    }

    fn original_map(&self) -> Labels<Grevlex> {
        let mut labels = Labels::new();
        for value in &self.stored {
            labels.get_comparer(value.index, value.monomial.clone());
        }
        labels
    }

    pub fn port(&self, asked: Asked) -> f64 {
        let mut image = self.image.clone();
        timed(|| {
            for value in self.asked(asked) {
                black_box(ask_port(black_box(&mut image), value));
            }
        })
    }

    /// The port's questions alone: the image is judged, and then the index has
    /// too many bits.
    pub fn questions(&self) -> f64 {
        let mut image = self.image.clone();
        timed(|| {
            for value in &self.known {
                let image = black_box(&mut image[..]);
                let refused = ask(image, 1 << 28, &value.words);
                assert_eq!(refused, 7 << 32);
            }
        })
    }
}

fn ask_port(image: &mut [u8], value: &Value) -> u64 {
    let label = ask(image, value.index, &value.words);
    assert!(label >> 32 == 0, "a label");
    label
}
