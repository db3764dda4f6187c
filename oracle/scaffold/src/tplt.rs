//! Named by a signature in lib.rs, and nowhere else.
#[derive(Clone, Debug, PartialEq)]
pub struct TpltParam;
