//! The C functions of the proved divisor index, as `include/divisor_index.h`
//! declares them.
//!
//! Everything lent is 32-bit words, low byte first; a slice is a pointer and a
//! length in bytes. Each function takes all bytes: it returns 0 and the answer
//! stands at the front of `out`, or the number of a refusal, and then no byte
//! is changed. The header says of each what it writes, the room that this takes and
//! what it refuses; docs/LAYOUT.md has the words.
//!
//! # Safety
//!
//! Each pointer must be valid for its length, a `*mut` one for writing too, and
//! what is written must overlap nothing else that is lent. There is no other
//! demand: no alignment is needed, and a slice of length 0 may be a null pointer.
//!
//! # Stack and threads
//!
//! [`divisor_index_check`], [`divisor_index_run`] and [`divisor_index_list`] need up to
//! 976 KiB of stack, on the deepest tree; the others less than 4 KiB. There is no
//! global state.

#![no_std]
#![deny(missing_docs)]

#[cfg(not(all(target_arch = "x86_64", target_os = "linux")))]
compile_error!("libdivisor_index.a is for Linux on x86-64");

/// A function on two monomials or two ratios, answering into a buffer.
pub type OnTwo = unsafe extern "C" fn(
    variables: u32,
    a: *const u8,
    a_len: usize,
    b: *const u8,
    b_len: usize,
    out: *mut u8,
    out_len: usize,
) -> u32;

macro_rules! on_two {
    ($($(#[$doc:meta])* $name:ident;)*) => {
        extern "C" {
            $(
                $(#[$doc])*
                pub fn $name(
                    variables: u32,
                    a: *const u8,
                    a_len: usize,
                    b: *const u8,
                    b_len: usize,
                    out: *mut u8,
                    out_len: usize,
                ) -> u32;
            )*
        }
    };
}

// crates/monomial_work. Refusals: 1 variables, 7 words, 9 powers, 5 room.
on_two! {
    /// The greatest common divisor.
    divisor_index_monomial_gcd;
    /// The product.
    divisor_index_monomial_mul;
    /// The quotient a / b, or a kind 4 word with payload 0 for none.
    divisor_index_monomial_whole_division;
    /// The ratio a / b.
    divisor_index_monomial_fraction_division;
    /// Whether a divides b: a kind 4 word, yes 1, no 0.
    divisor_index_monomial_divides;
    /// Whether two monomials are equal: a kind 4 word, yes 1, no 0.
    divisor_index_monomial_eq;
    /// How two monomials compare: a kind 4 word, less 0, equal 1, greater 2.
    divisor_index_monomial_cmp;
    /// Whether two ratios are equal.
    divisor_index_ratio_eq;
    /// How two ratios compare.
    divisor_index_ratio_cmp;
}

// crates/divmask_work. Refusals: 1 variables and maxima, 7 words, 5 room.
extern "C" {
    /// The mask of a monomial, as a bare word.
    pub fn divisor_index_divmask_mask(
        variables: u32,
        maxima: *const u8,
        maxima_len: usize,
        monomial: *const u8,
        monomial_len: usize,
        out: *mut u8,
        out_len: usize,
    ) -> u32;

    /// What two masks say of divisibility: 0 not divisible, 1 unsure.
    pub fn divisor_index_divmask_divides(a: u32, b: u32) -> u32;

    /// Raises the lent maxima to the powers of a monomial.
    pub fn divisor_index_divmask_update(
        variables: u32,
        maxima: *mut u8,
        maxima_len: usize,
        monomial: *const u8,
        monomial_len: usize,
    ) -> u32;

    /// Whether the maxima have grown beyond a percentage: a kind 4 word, yes 1,
    /// no 0.
    pub fn divisor_index_divmask_growth(
        variables: u32,
        maxima: *const u8,
        maxima_len: usize,
        percentage: u8,
        out: *mut u8,
        out_len: usize,
    ) -> u32;
}

// crates/label_work. Refusals: 1 variables and capacity, 2 buffer, 3 image, 7
// words, 8 capacity reached, 10 no label.
extern "C" {
    /// The length in bytes of a label map's image, which is above 16, or 1.
    pub fn divisor_index_fast_compare_length(variables: u32, capacity: u32) -> u32;

    /// Writes an empty label map.
    pub fn divisor_index_fast_compare_open(
        variables: u32,
        capacity: u32,
        image: *mut u8,
        image_len: usize,
    ) -> u32;

    /// The label of a value, which is stored if it is new. A refusal stands in
    /// the upper 32 bits.
    pub fn divisor_index_fast_compare_get_comparer(
        image: *mut u8,
        image_len: usize,
        index: u32,
        ratio: *const u8,
        ratio_len: usize,
    ) -> u64;

    /// Spaces the labels evenly.
    pub fn divisor_index_fast_compare_rebuild(image: *mut u8, image_len: usize) -> u32;
}

// crates/index_sound. Refusal: 3 image.
extern "C" {
    /// Whether the bytes begin with the image of a valid index. It changes
    /// nothing.
    pub fn divisor_index_check(image: *const u8, image_len: usize) -> u32;
}

// crates/divisor_index. Refusals: 1 kind, variables, capacity and maxima, 2 buffer, 3
// image, 4 list, 6 no monomial index, 5 room. Inside a list a refusal (6, 7, 8) is a kind
// 5 word in its call's place.
extern "C" {
    /// The length in bytes of an index's image, which is above 16, or 1.
    pub fn divisor_index_length(
        kind: u32,
        variables: u32,
        capacity: u32,
        maxima: *const u8,
        maxima_len: usize,
    ) -> u32;

    /// Writes the image of an index that holds nothing.
    pub fn divisor_index_open(
        kind: u32,
        variables: u32,
        capacity: u32,
        maxima: *const u8,
        maxima_len: usize,
        image: *mut u8,
        image_len: usize,
    ) -> u32;

    /// Runs a list of calls on an image, and writes one answer word a call.
    pub fn divisor_index_run(
        image: *mut u8,
        image_len: usize,
        list: *const u8,
        list_len: usize,
        answers: *mut u8,
        answers_len: usize,
    ) -> u32;

    /// Writes the monomials of a monomial index, one behind the other.
    pub fn divisor_index_list(
        image: *const u8,
        image_len: usize,
        answers: *mut u8,
        answers_len: usize,
    ) -> u32;
}
