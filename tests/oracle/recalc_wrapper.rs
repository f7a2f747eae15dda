//! Stands in the place of recalc.rs. A child module sees the private items of its parents, and this gives the unchanged
//! text one.

include!("recalc_unchanged.rs");

#[path = "../inside.rs"]
pub(crate) mod inside;
