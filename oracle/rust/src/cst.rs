//! What the event stream needs of docs/src's module `cst`.
#[allow(dead_code)]
#[rustfmt::skip]
#[path = "../../../docs/src/src/cst/syntax_kind.rs"]
pub mod syntax_kind;
#[rustfmt::skip]
#[path = "../../../docs/src/src/cst/syntax_stream.rs"]
pub mod syntax_stream;

pub use syntax_kind::SyntaxKind;

use crate::Span;

include!(concat!(env!("OUT_DIR"), "/event.rs"));
