//! What the oracle is made of (oracle/README.md); bench/ takes its tables, its types and its values from here.
pub mod compare;
pub mod file;
pub mod generate;
pub mod literal;
pub mod model;
pub mod question;
pub mod rows;
pub mod types;
