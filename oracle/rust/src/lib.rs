//! The Rust that was ported: docs/src's files, unchanged and in place, behind calls over document 01's numbers.
use std::fmt::{Display, Formatter};
use std::ops::Range;

mod cst;
pub mod events;
mod kinds;
mod parser;
#[allow(dead_code)]
#[rustfmt::skip]
#[path = "../../../docs/src/src/tokenizer/mod.rs"]
mod tokenizer;
mod tokens;
pub mod window;

pub use reading::plain::{Mode, Tok};
pub use tokens::Tokens;

// here, as in the source: one of its constants is private to the root
include!(concat!(env!("OUT_DIR"), "/span.rs"));
