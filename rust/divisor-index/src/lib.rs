//! The proved divisor index for Rust, with the names of polynomial-solver.
//!
//! [`MonomialIndex`] holds monomials and tells whether one of them divides
//! another; [`RatioMonomialIndex`] holds the elements of a signature basis and
//! finds reducers and base divisors. Both are lent the caller's own monomials,
//! by the trait [`Product`], and answer with numbers of entries: keep what
//! belongs to an entry in a `Vec`, in the order of the inserts.
//!
//! Every question is asked by the proved code, and what it refuses is a
//! [`Refusal`], which leaves everything as it was. Only the kind of an image that
//! `from_image` takes over is compared on this side.
//!
//! ```
//! use divisor_index::{Config, Ratio, RatioMonomialIndex, Refusal, Signature};
//!
//! let mut index = RatioMonomialIndex::open(&Config::new(4, 100)?);
//! let mut polys = vec![];
//! // Signature x1 · e2, leading monomial x2 · x1 · x0.
//! let number = index.insert(Signature::new(2, &[(1, 1)]), &[(2, 1), (1, 1), (0, 1)])?;
//! polys.push("x2·x1·x0 + x3");
//! assert_eq!(number.index(), 0);
//!
//! let ratio = Ratio::new(2, &[(3, 1), (2, -1), (1, -1)]);
//! if let Some(reducer) = index.find_a_reducer(ratio, &[(2, 2), (1, 1), (0, 1)])? {
//!     assert_eq!(polys[reducer.entry.index()], "x2·x1·x0 + x3");
//! }
//! # Ok::<(), Refusal>(())
//! ```
//!
//! # Cost
//!
//! A list of calls judges the whole image once, and a method of an index lends a
//! list of one call. With 8 to 20 variables and 4,000 entries the check takes
//! about 0.1 to 0.6 ms in a monomial index and 0.5 to 1.7 ms in a ratio index, by the
//! machine; a call takes 0.2 to 12 µs. So
//!
//! | 4,000 entries | one call by itself | one of a batch of 100 |
//! |---|---|---|
//! | monomial index | 0.1 to 0.6 ms | 1 to 7 µs |
//! | ratio index | 0.5 to 1.7 ms | 6 to 24 µs |
//!
//! Write calls that do not wait for each other's answers into a [`MonomialBatch`]
//! or a [`RatioBatch`], or ask [`MonomialIndex::contains_divisors`] and
//! [`RatioMonomialIndex::find_reducers`]. The calls of a batch are served in
//! order, each on what the earlier ones left. For a regular reduction, whose calls do
//! wait for each other, [`Reducers`] asks ahead and keeps the answers.
//! docs/SPEED.md has the measurements.
//!
//! # Code written for the original
//!
//! [`compat`] has both indexes with the original's signatures, over the solver's
//! own elements.
//!
//! # The parts on words
//!
//! The functions of [`monomial`], [`ratio`], [`divmask`], [`fast_compare`] and
//! [`image`] take slices of document 01's words (see docs/LAYOUT.md); those of
//! [`doors`] are the C functions themselves on byte slices.

#![deny(missing_docs, unsafe_code)]

mod answer;
pub mod compat;
pub mod divmask;
#[allow(unsafe_code)]
pub mod doors;
pub mod fast_compare;
pub mod image;
mod index;
pub mod monomial;
pub mod ratio;
mod refusal;

pub use index::{
    Answers, Config, EntryNumber, MonomialBatch, MonomialIndex, Product, Ratio, RatioBatch,
    RatioMonomialIndex, Reducer, ReducerKind, Reducers, Refused, Signature, SignatureIndex,
    StoredEntry, StoredMonomial, Ticket,
};
pub use refusal::{Refusal, UnknownNumber};

/// The stack in bytes that any call of this crate may need, 1 MiB.
///
/// It is the tree in the image that decides: one as deep as its 4,096 entries
/// takes 976 KiB, a balanced one some 20 KiB. Rust's threads have 2 MiB, if nothing
/// else is asked for.
pub const STACK: usize = 1 << 20;
