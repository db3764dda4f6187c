//! The errors that the given files name.
use crate::ty::Type;

#[derive(Clone, Debug, PartialEq)]
pub enum Error {
    Component(Type, String),
    OutOfBounds(usize, Type, usize),
    NotIndexable(Type),
    WriteRefType(Type, Type),
    NotRead,
    NotWrite,
    NotReadWrite,
    SampledType(Type),
}
