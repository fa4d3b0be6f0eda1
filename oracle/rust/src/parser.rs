//! What the window needs of docs/src's module `parser`.
#[allow(dead_code)]
#[rustfmt::skip]
#[path = "../../../docs/src/src/parser/token_stream.rs"]
pub mod token_stream;
