//! Answers of the doors of the monomial and mask work.

use std::cmp::Ordering;

use bytemuck::cast_slice_mut;

use crate::Refusal;

/// A bare word, or a kind 4 word.
pub type Word = Answer<1>;

/// A monomial or ratio, in room for 64 variables and an end word.
pub type Words = Answer<65>;

/// What a door wrote.
pub struct Answer<const ROOM: usize>([u32; ROOM]);

impl<const ROOM: usize> Answer<ROOM> {
    /// Calls a door with room for the answer.
    pub fn of(door: impl FnOnce(&mut [u8]) -> u32) -> Result<Self, Refusal> {
        let mut out = [0; ROOM];
        Refusal::check(door(cast_slice_mut(&mut out)))?;
        Ok(Answer(out))
    }
}

impl Word {
    pub fn bare(&self) -> u32 {
        self.0[0]
    }

    /// Yes 1, no 0.
    pub fn yes(&self) -> bool {
        payload(self.bare()) == 1
    }

    /// Less 0, equal 1, greater 2.
    pub fn ordering(&self) -> Ordering {
        payload(self.bare()).cmp(&1)
    }
}

impl Words {
    /// The words up to the end word.
    pub fn words(&self) -> Vec<u32> {
        let variables = self.0.iter().take_while(|word| kind(**word) != 0).count();
        self.0[..=variables].to_vec()
    }

    /// The words, or none for a kind 4 word.
    pub fn quotient(&self) -> Option<Vec<u32>> {
        (kind(self.0[0]) != 4).then(|| self.words())
    }
}

/// The top 4 bits of a word.
pub fn kind(word: u32) -> u32 {
    word >> 28
}

/// The other 28 bits.
pub fn payload(word: u32) -> u32 {
    word & 0x0FFF_FFFF
}
