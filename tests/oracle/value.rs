//! The options that params.rs reads. The oracle takes its numbers from lines, so there are none.

pub(crate) struct Value;

impl Value {
    pub(crate) fn int_at(&self, _: &[&str]) -> Option<i64> {
        None
    }

    pub(crate) fn float_at(&self, _: &[&str]) -> Option<f64> {
        None
    }

    pub(crate) fn bool_at(&self, _: &[&str]) -> Option<bool> {
        None
    }

    pub(crate) fn array_at(&self, _: &[&str]) -> Option<&[Value]> {
        None
    }
}
