//! Stands in the place of planes.rs, as recalc_wrapper.rs does in that of recalc.rs. Here main.rs says where the module
//! is, so that the unchanged text keeps its own name.

include!("analyse/planes.rs");

#[path = "inside_planes.rs"]
pub(crate) mod inside;
