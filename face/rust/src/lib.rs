//! Zone chains: the proved numeric core of a district heating plan, for Rust.
//!
//! Every call answers a `Result`: what it made, or the `Refusal` with number, place, index and words. Nothing panics.
//! `Chain` and `Run` own their numbers; the functions work on slices that the caller lends. All unsafe code stands in one
//! module, `raw`.
#![deny(unsafe_code)]

mod calls;
mod chain;
mod layout;
#[allow(unsafe_code)]
mod raw;
mod records;
mod refusal;
mod run;
mod shape;

pub use calls::{
    contract_and_split, entry_of, evolve, floor, inner_separable, magnitude, rank1_separable,
    read_chain, root, step, text_of, tt_round, write_chain, PAIR_SCRATCH,
};
pub use chain::Chain;
pub use records::{Axis, Bond, Boundary, Course, Cutting, Mode, Paired, Rounded, Settings};
pub use refusal::Refusal;
pub use run::Run;
pub use shape::Shape;

/// The most axes that a chain has.
pub const MOST_AXES: usize = layout::MOST_AXES;
