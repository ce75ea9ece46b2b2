//! Differential tests of the divisor index.
//!
//! Four opinions on every call list of document 01's words: the port, run
//! through [`port`] as bytes through C; the original, run through
//! [`original_run`]; a plain [`model`] of document 01 that says the same down to
//! the ties; and the definitions of [`meaning`], which know no tree. [`jobs`]
//! makes the lists, [`compare`] holds the opinions against each other, [`tally`]
//! counts, and [`typed`] makes the same calls by the crate for the solver.
//! [`leaves`] compares original and model on the operations below the index,
//! [`doors`] lends the same work to the port, and [`images`] lends it images of
//! indexes.

pub mod compare;
pub mod doors;
pub mod grevlex;
pub mod images;
pub mod jobs;
pub mod leaves;
pub mod meaning;
pub mod model;
pub mod order;
pub mod original_run;
pub mod port;
pub mod rng;
pub mod tally;
pub mod typed;
pub mod words;
