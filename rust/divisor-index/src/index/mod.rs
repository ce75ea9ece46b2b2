//! The two indexes, typed.

mod batch;
mod calls;
mod config;
mod layout;
mod monomial_index;
mod product;
mod ratio_monomial_index;
mod reducers;
mod reply;
mod store;
mod words;

pub use batch::{Answers, MonomialBatch, RatioBatch, Ticket};
pub use config::Config;
pub use layout::{StoredEntry, StoredMonomial};
pub use monomial_index::MonomialIndex;
pub use product::{Product, Ratio, Signature};
pub use ratio_monomial_index::RatioMonomialIndex;
pub(crate) use reducers::Known;
pub use reducers::Reducers;
pub use reply::{EntryNumber, Reducer, ReducerKind, SignatureIndex};
pub use store::Refused;
