//! Declared by lib.rs; the given files use nothing of it.
