//! The words of what is lent.

use super::Product;

/// A word of no kind that a body can have. It stands for numbers that no word
/// can hold, so that the call is refused, and neither cut nor split.
pub const NO_WORD: u32 = 0xF000_0000;

/// The kinds of words.
const END: u32 = 0;
const VARIABLE: u32 = 1;
const RATIO_VARIABLE: u32 = 2;
pub const INDEX: u32 = 3;
pub const CALL: u32 = 6;

/// A word, where the payload has room in it.
pub fn word(kind: u32, payload: u32) -> u32 {
    match payload >> 28 {
        0 => kind << 28 | payload,
        _ => NO_WORD,
    }
}

/// Appends the words of a monomial.
pub fn push_monomial(words: &mut Vec<u32>, monomial: &(impl Product + ?Sized)) {
    let variables = monomial.variables();
    push_product(
        words,
        variables.map(|(id, power)| variable(VARIABLE, id, power)),
    );
}

/// Appends the words of a ratio's quotient.
pub fn push_quotient(words: &mut Vec<u32>, quotient: &(impl Product + ?Sized)) {
    let variables = quotient.variables();
    push_product(
        words,
        variables.map(|(id, power)| variable(RATIO_VARIABLE, id, power.saturating_add(32_768))),
    );
}

/// Appends the variables' words, and the end word with their number.
fn push_product(words: &mut Vec<u32>, variables: impl Iterator<Item = u32>) {
    let first = words.len();
    words.extend(variables);
    let count = (words.len() - first).try_into().unwrap_or(u32::MAX);
    words.push(word(END, count));
}

/// A variable's word, where id and power have room in it.
fn variable(kind: u32, id: u16, power: i32) -> u32 {
    match u16::try_from(power) {
        Ok(power) => word(kind, u32::from(id) << 16 | u32::from(power)),
        Err(_) => NO_WORD,
    }
}

#[cfg(test)]
mod tests {
    use super::*;

    #[test]
    fn what_no_word_holds() {
        assert_eq!(variable(VARIABLE, 4095, 0xFFFF), 0x1FFF_FFFF);
        assert_eq!(variable(VARIABLE, 4096, 1), NO_WORD);
        assert_eq!(variable(VARIABLE, 0, 0x1_0000), NO_WORD);
        assert_eq!(variable(VARIABLE, 0, -1), NO_WORD);
        assert_eq!(word(INDEX, 0x0FFF_FFFF), 0x3FFF_FFFF);
        assert_eq!(word(INDEX, 0x3000_0000), NO_WORD);
    }
}
