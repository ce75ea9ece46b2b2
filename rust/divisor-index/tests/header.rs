//! The numbers of the C header are those of this crate.

use divisor_index::{Refusal, STACK};

const HEADER: &str = include_str!("../../divisor-index-sys/include/divisor_index.h");

#[test]
fn stack() {
    assert!(HEADER.contains(&format!("#define DIVISOR_INDEX_STACK {STACK}\n")));
}

/// `NotServed` as `NOT_SERVED`.
fn in_c(name: &str) -> String {
    let mut made = String::new();
    for letter in name.chars() {
        if letter.is_uppercase() && !made.is_empty() {
            made.push('_');
        }
        made.push(letter.to_ascii_uppercase());
    }
    made
}

#[test]
fn refusals() {
    let (_, rest) = HEADER.split_once("enum divisor_index_refusal {\n").unwrap();
    let (lines, _) = rest.split_once("};").unwrap();
    let named = |refusal: Refusal| {
        let (name, number) = (in_c(&format!("{refusal:?}")), refusal.number());
        format!("DIVISOR_INDEX_{name} = {number}")
    };
    let declared = lines.lines().map(|line| {
        let (declared, _) = line.split_once("/*").unwrap();
        declared.trim().trim_end_matches(',').to_string()
    });
    assert_eq!(declared.collect::<Vec<_>>(), Refusal::ALL.map(named));
}
