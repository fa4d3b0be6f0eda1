//! Two readings of the rules beside the port's and the Rust's own: of document 01's text, and of the patterns.
pub mod patterns;
pub mod plain;
