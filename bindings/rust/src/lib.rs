// SPDX-License-Identifier: BSD-3-Clause
//! The tokens of YARA rules, with lookahead and backtracking, and the events of a parser.
//!
//! This crate calls a static library whose functions are proved to do what they promise: every call ends with an answer, for all bytes and
//! all orders of calls, and no token is lost when a parser goes back. The names are those of the Rust crate yara-x-parser, of which the
//! library is a port.
//!
//! | What you want | What there is |
//! |---|---|
//! | all tokens of a source, or those behind an edit | [`Tokens`], an iterator |
//! | tokens one by one, looking ahead and going back | [`TokenStream`] |
//! | the same in little memory | [`TokenStream::with_slots`] |
//! | hex patterns and jumps | [`TokenStream::enter_hex_pattern_mode`], [`TokenStream::enter_hex_jump_mode`]; [`Mode`] |
//! | handing on what a parser found | [`EventStream`] |
//!
//! ```
//! use warpthistle::{Kind, TokenStream};
//!
//! /// The names of the rules of a file.
//! fn rules(src: &[u8]) -> Result<Vec<String>, warpthistle::Refusal> {
//!     let mut stream = TokenStream::new(src)?;
//!     let mut names = Vec::new();
//!     while let Some(token) = stream.next_token() {
//!         // behind `rule` and blanks stands the name; if not, nothing was taken
//!         if token.kind == Kind::RuleKw {
//!             let start = stream.bookmark()?;
//!             while stream.peek_token(0).is_some_and(|token| token.kind.is_trivia()) {
//!                 stream.next_token();
//!             }
//!             match stream.next_token() {
//!                 Some(name) if name.kind == Kind::Ident => names.push(String::from_utf8_lossy(name.text(src)).into_owned()),
//!                 _ => stream.restore_bookmark(&start)?,
//!             }
//!             stream.remove_bookmark(start)?;
//!         }
//!     }
//!     Ok(names)
//! }
//!
//! let src = b"rule till { condition: true }\nrule \"oops\nprivate rule kit : x y { condition: till }";
//! assert_eq!(rules(src)?, ["till", "kit"]);
//! # Ok::<(), warpthistle::Refusal>(())
//! ```
//!
//! # What can be refused
//!
//! What cannot be done is refused, by a [`Refusal`], and a refused call changes nothing. Only calls that can be refused give a `Result`. A
//! source has at most [`SOURCE_LIMIT`] bytes, a token stream at most [`BOOKMARK_LIMIT`] live bookmarks, an event stream as much room as it
//! was made with. Bytes that are no UTF-8, and text that is no token, are tokens of their own: [`Kind::InvalidUtf8`], [`Kind::Unknown`].
//!
//! # Threads
//!
//! The library has no state, allocates nothing and keeps no pointer. All types are `Send` and `Sync`; a stream changes by `&mut` alone.
//!
//! # The library
//!
//! `./library` in the repository builds the static library, and wants the Rattle kit. The build script of this crate finds it by the
//! environment variable `WARPTHISTLE_LIBRARY` (the path of the archive) or `WARPTHISTLE_LIB_DIR` (its folder), by pkg-config, or in the
//! repository. [`library_version`] is tested where a stream is made: a library of another minor version is not worked with.
#![deny(missing_docs, unsafe_code)]
#![warn(clippy::undocumented_unsafe_blocks)]

/// The program of README.md, which is tried as documentation is.
#[cfg(doctest)]
#[doc = include_str!("../README.md")]
mod readme {}

mod event_stream;
mod kind;
mod refusal;
#[allow(unsafe_code)]
mod sys;
mod token;
mod token_stream;
mod tokens;

pub use event_stream::{Event, EventBookmark, EventStream};
pub use kind::Kind;
pub use refusal::Refusal;
pub use token::{Mode, Token};
pub use token_stream::{Bookmark, TightTokenStream, TokenStream};
pub use tokens::Tokens;

/// The most bytes that a source can have.
pub const SOURCE_LIMIT: usize = 65_535;

/// The most bookmarks that can be live in a token stream.
pub const BOOKMARK_LIMIT: usize = 64;

/// The most bookmarks that can be live in an event stream.
pub const EVENT_BOOKMARK_LIMIT: usize = 65_535;

/// The version of this crate, as one number: 1,000,000 for each major version, 1,000 for each minor one, and the patch.
pub const VERSION: u32 = 1_000_000 * number(env!("CARGO_PKG_VERSION_MAJOR"))
    + 1_000 * number(env!("CARGO_PKG_VERSION_MINOR"))
    + number(env!("CARGO_PKG_VERSION_PATCH"));

/// The number that a text of digits names.
const fn number(text: &str) -> u32 {
    let digits = text.as_bytes();
    let (mut at, mut value) = (0, 0);
    while at < digits.len() {
        value = 10 * value + (digits[at] - b'0') as u32;
        at += 1;
    }
    value
}

/// The version of the library that is linked, as one number like [`VERSION`].
///
/// ```
/// assert_eq!(warpthistle::library_version() / 1000, warpthistle::VERSION / 1000);
/// ```
pub fn library_version() -> u32 {
    sys::version()
}

/// Ends where the library that is linked has another interface than this crate. Below 1.0 a minor version may change it.
#[inline]
fn must_fit() {
    let found = library_version();
    assert!(
        found / 1_000 == VERSION / 1_000,
        "this is version {VERSION} of the crate warpthistle, and version {found} of its library is linked: build one of them anew"
    );
}
