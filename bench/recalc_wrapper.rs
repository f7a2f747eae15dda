//! Stands in the place of recalc.rs, as the oracle's wrapper does: the unchanged text, and child modules that see its
//! private items.

include!("recalc_unchanged.rs");

#[path = "../rust_cost.rs"]
pub(crate) mod rust_cost;
#[path = "../rust_evaluate.rs"]
pub(crate) mod rust_evaluate;
