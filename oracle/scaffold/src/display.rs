//! Texts of panics: the given files only need that there are some.
use std::fmt::{Debug, Display, Formatter, Result};

use crate::{
    inst::{Instance, LiteralInstance},
    ty::Type,
};

macro_rules! display_by_debug {
    ($($name:ty),*) => {
        $(impl Display for $name {
            fn fmt(&self, f: &mut Formatter<'_>) -> Result {
                Debug::fmt(self, f)
            }
        })*
    };
}

display_by_debug!(Type, Instance, LiteralInstance);
