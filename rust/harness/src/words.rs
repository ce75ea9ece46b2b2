//! Document 01's words: the top 4 bits are the kind, 28 bits the payload.

pub const END: u32 = 0;
pub const VARIABLE: u32 = 1;
pub const RATIO_VARIABLE: u32 = 2;
pub const INDEX: u32 = 3;
pub const ANSWER: u32 = 4;
pub const REFUSAL: u32 = 5;
pub const CALL: u32 = 6;

pub const MAX_POWER: i32 = 32_767;
pub const MAX_VARIABLES: usize = 64;
pub const MAX_CAPACITY: usize = 4_096;

/// What a ratio's power is raised by in its word.
pub const RATIO_BIAS: i32 = 32_768;

/// Added to the payload of a singular reducer.
pub const SINGULAR: u32 = 1 << 27;

pub fn word(kind: u32, payload: u32) -> u32 {
    debug_assert!(kind < 16 && payload < 1 << 28);
    kind << 28 | payload
}

pub fn kind(word: u32) -> u32 {
    word >> 28
}

pub fn payload(word: u32) -> u32 {
    word & 0x0FFF_FFFF
}

/// Payload of a search: 0 for none, else the entry's number + 1.
pub fn found(number: Option<u32>) -> u32 {
    number.map_or(0, |number| number + 1)
}

/// The words of a monomial whose variables are given in falling id.
pub fn monomial_words(vars: impl IntoIterator<Item = (u16, i32)>) -> Vec<u32> {
    product_words(vars, VARIABLE, 0)
}

/// The words of a ratio whose variables are given in falling id.
pub fn ratio_words(vars: impl IntoIterator<Item = (u16, i32)>) -> Vec<u32> {
    product_words(vars, RATIO_VARIABLE, RATIO_BIAS)
}

fn product_words(vars: impl IntoIterator<Item = (u16, i32)>, kind: u32, bias: i32) -> Vec<u32> {
    let variable = |(id, power)| word(kind, u32::from(id) << 16 | (power + bias) as u32);
    let mut words: Vec<u32> = vars.into_iter().map(variable).collect();
    words.push(word(END, words.len() as u32));
    words
}

/// The calls of a list, each from its kind 6 word to before the next one.
pub fn calls(list: &[u32]) -> impl Iterator<Item = &[u32]> {
    let mut rest = list;
    std::iter::from_fn(move || {
        let (_, body) = rest.split_first()?;
        let length = body.iter().take_while(|w| kind(**w) != CALL).count();
        let (call, after) = rest.split_at(1 + length);
        rest = after;
        Some(call)
    })
}
