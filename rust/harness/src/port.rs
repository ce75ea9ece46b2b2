//! An index of the port, behind its doors.
//!
//! Image and answers are lent at odd places with bytes around them that must
//! stay as they are.

use divisor_index::doors;

use crate::model::{Kind, Opening};

/// Bytes lent past the image, and past the answers.
const PAST: usize = 8;

const PATTERN: u8 = 0xA5;

pub struct Port {
    /// A byte that is not lent, the image, and bytes past it.
    buffer: Vec<u8>,
}

/// Words of an image that are compared at once.
const BLOCK: usize = 256;

/// What is wrong beside the answers.
pub type Fault = &'static str;

impl Port {
    pub fn open(opening: &Opening) -> Result<Self, Fault> {
        let maxima: Vec<u32> = opening.maxima.iter().map(|m| *m as u32).collect();
        let (maxima, variables) = (bytes(&maxima), opening.maxima.len() as u32);
        let kind = u32::from(opening.kind == Kind::Ratio);
        let capacity = opening.capacity as u32;
        let length = doors::divisor_index_length(kind, variables, capacity, &maxima);
        if length <= 16 {
            return Err("the length is refused");
        }
        let mut port = Self::of_image(&vec![0; length as usize]);
        match doors::divisor_index_open(kind, variables, capacity, &maxima, port.lent()) {
            0 => Ok(port),
            _ => Err("the opening is refused"),
        }
    }

    /// With an image that need not be sound.
    pub fn of_image(image: &[u8]) -> Self {
        let mut buffer = Vec::with_capacity(1 + image.len() + PAST);
        buffer.push(PATTERN);
        buffer.extend(image);
        buffer.extend([PATTERN; PAST]);
        Port { buffer }
    }

    fn lent(&mut self) -> &mut [u8] {
        &mut self.buffer[1..]
    }

    /// The image; the bytes around it must be as they were.
    pub fn image(&self) -> Result<&[u8], Fault> {
        let (first, lent) = self.buffer.split_first().expect("a byte before the image");
        let (image, past) = lent.split_at(lent.len() - PAST);
        match *first == PATTERN && past == [PATTERN; PAST] {
            true => Ok(image),
            false => Err("a byte beside the image is changed"),
        }
    }

    /// Whether the image is that of these words.
    pub fn has_image(&self, words: &[u32]) -> Result<bool, Fault> {
        let (image, rest) = self.image()?.as_chunks();
        let mut blocks = image.chunks(BLOCK).zip(words.chunks(BLOCK));
        let same = blocks.all(|(image, words)| differing_bits(image, words) == 0);
        Ok(same && image.len() == words.len() && rest.is_empty())
    }

    /// The answers to a list of so many calls.
    pub fn run(&mut self, list: &[u32], calls: usize) -> Result<Vec<u32>, Fault> {
        let list = bytes(list);
        let mut out = vec![PATTERN; 4 * calls + PAST];
        let number = doors::divisor_index_run(self.lent(), &list, &mut out);
        answers(number, &out, calls)
    }

    /// The listing, which has so many words.
    pub fn list(&self, words: usize) -> Result<Vec<u32>, Fault> {
        let mut out = vec![PATTERN; 4 * words + PAST];
        let number = doors::divisor_index_list(&self.buffer[1..], &mut out);
        answers(number, &out, words)
    }

    /// The number of a listing into so many bytes, which must stay as they are.
    pub fn refused_listing(&self, bytes: usize) -> Result<u32, Fault> {
        let mut out = vec![PATTERN; bytes];
        let number = doors::divisor_index_list(&self.buffer[1..], &mut out);
        match out.iter().all(|byte| *byte == PATTERN) {
            true => Ok(number),
            false => Err("a refused listing writes"),
        }
    }
}

fn answers(number: u32, out: &[u8], count: usize) -> Result<Vec<u32>, Fault> {
    if number != 0 {
        return Err("a list or listing is refused");
    }
    let (words, past) = out.split_at(4 * count);
    match past.iter().all(|byte| *byte == PATTERN) {
        true => Ok(words_of(words)),
        false => Err("a byte past the answers is changed"),
    }
}

/// The bits in which some word differs.
fn differing_bits(image: &[[u8; 4]], words: &[u32]) -> u32 {
    let pairs = image.iter().zip(words);
    pairs.fold(0, |bits, (bytes, word)| {
        bits | u32::from_le_bytes(*bytes) ^ word
    })
}

/// Words as they are lent.
pub fn bytes(words: &[u32]) -> Vec<u8> {
    words.iter().flat_map(|word| word.to_le_bytes()).collect()
}

/// The whole words among bytes.
pub fn words_of(bytes: &[u8]) -> Vec<u32> {
    let (words, _) = bytes.as_chunks();
    words.iter().map(|word| u32::from_le_bytes(*word)).collect()
}
