//! The divisor index of polynomial-solver, compiled from the supplied files.
//!
//! build.rs lays out the source tree in OUT_DIR: the supplied files unchanged,
//! excerpts of two more, and stand-ins for what was not supplied. What is ours
//! and not the original's is [`oracle`], which stands inside `signature_basis`
//! because most of what it calls is private to that module, and the modules
//! `shown`, which stand behind the text of four files and hand on what is
//! private to these: nodes, masks and maxima.

// The supplied files hold far more than the index needs, and their style is theirs.
#![allow(
    dead_code,
    unused_imports,
    private_interfaces,
    clippy::all,
    rustdoc::all
)]

include!(concat!(env!("OUT_DIR"), "/root.rs"));

pub use polynomial::signature_basis::oracle;
