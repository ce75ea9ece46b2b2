//! The port: an image, lent to the doors.

use std::hint::black_box;

use divisor_index::doors;
use harness::{model::state::Entry, words::payload};

use super::{drawing::HIGHEST_POWER, Call, Shape};
use crate::timing::timed;

#[derive(Clone)]
pub struct Port {
    pub image: Vec<u8>,
    answers: Vec<u8>,
}

impl Port {
    pub fn open(shape: Shape) -> Self {
        let mut image = vec![0; Self::length(shape)];
        Self::open_in(shape, &mut image);
        Port {
            image,
            answers: vec![],
        }
    }

    pub fn length(shape: Shape) -> usize {
        let (kind, variables) = (shape.kind as u32, shape.variables as u32);
        doors::divisor_index_length(kind, variables, shape.capacity(), &maxima(shape)) as usize
    }

    pub fn open_in(shape: Shape, image: &mut [u8]) {
        let (kind, variables, maxima) = (shape.kind as u32, shape.variables as u32, maxima(shape));
        let number = doors::divisor_index_open(kind, variables, shape.capacity(), &maxima, image);
        assert_eq!(number, 0, "an opening");
    }

    /// The time of a list, its question 3 with it.
    pub fn run(&mut self, list: &[u8]) -> f64 {
        // A call has two words at least.
        self.answers
            .resize(self.answers.len().max(list.len() / 2), 0);
        let (image, answers) = (&mut self.image[..], &mut self.answers[..]);
        let mut number = 0;
        let time = timed(|| number = doors::divisor_index_run(image, black_box(list), answers));
        assert_eq!(number, 0, "a list");
        time
    }

    /// The time of a list without that of question 3, which an empty list has.
    /// Another empty list before both brings the image near to the processor.
    pub fn run_calls(&mut self, list: &[u8]) -> f64 {
        self.run(&[]);
        let question_3 = self.run(&[]);
        self.run(list) - question_3
    }

    /// The payloads of the answers to so many calls.
    pub fn ask(&mut self, call: Call, queries: &[Entry]) -> Vec<u32> {
        self.run(&call.list(queries));
        let (words, _) = self.answers.as_chunks();
        let answers = words.iter().map(|word| payload(u32::from_le_bytes(*word)));
        answers.take(queries.len()).collect()
    }

    /// The queries for which there is no reducer.
    pub fn without_reducer(&mut self, queries: Vec<Entry>) -> Vec<Entry> {
        let found = self.ask(Call::Reducer, &queries);
        let with_found = queries.into_iter().zip(found);
        let without = with_found.filter(|(_, found)| *found == 0);
        without.map(|(query, _)| query).collect()
    }
}

/// Of the map of masks, as words.
fn maxima(shape: Shape) -> Vec<u8> {
    (HIGHEST_POWER as u32).to_le_bytes().repeat(shape.variables)
}
