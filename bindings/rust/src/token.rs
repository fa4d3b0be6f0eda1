// SPDX-License-Identifier: BSD-3-Clause
//! Tokens, and the modes in which they are read.
use crate::{sys, Kind};
use std::ops::Range;

/// A token: its kind, and the bytes of the source that it has.
///
/// Tokens follow one another without a gap from the start of the source to its end, and none is empty.
///
/// ```
/// use warpthistle::{Kind, Tokens};
/// let src = b"x=1KB";
/// let last = Tokens::new(src)?.last().unwrap();
/// assert_eq!(last.kind, Kind::IntegerLit);
/// assert_eq!(last.span(), 2..5);
/// assert_eq!(last.text(src), b"1KB");
/// # Ok::<(), warpthistle::Refusal>(())
/// ```
#[derive(Clone, Copy, Debug, PartialEq, Eq, Hash)]
#[non_exhaustive]
pub struct Token {
    /// What it is.
    pub kind: Kind,
    /// Its first byte, counted from the start of the source.
    pub start: u32,
    /// The byte behind its last one.
    pub end: u32,
}

impl Token {
    /// The bytes that it has, as a range of the source.
    #[inline]
    pub const fn span(&self) -> Range<usize> {
        self.start as usize..self.end as usize
    }

    /// Its bytes, of the source that it was read from.
    ///
    /// # Panics
    ///
    /// Where `src` is another source, and shorter than the token's end.
    #[inline]
    pub fn text<'src>(&self, src: &'src [u8]) -> &'src [u8] {
        &src[self.span()]
    }

    /// The token that the library wrote.
    #[inline]
    pub(crate) fn of(sys::RawToken([kind, start, end]): sys::RawToken) -> Token {
        let kind = Kind::of(kind).unwrap_or_else(|| no_kind(kind));
        Token { kind, start, end }
    }
}

/// A number of the library's is no kind's.
#[cold]
fn no_kind(number: u32) -> ! {
    panic!("the library gave a token of kind {number}, which is none of its interface")
}

/// How a source is read. Which mode is right, only a parser knows.
///
/// Jump mode falls back to pattern mode, and pattern mode to normal mode, at the first byte where no token of theirs begins.
#[derive(Clone, Copy, Debug, Default, PartialEq, Eq, Hash)]
pub enum Mode {
    /// Everywhere but in hex patterns: `10` is a number, `a0` a name.
    #[default]
    Normal = 0,
    /// In a hex pattern, from behind its `{`: `10` and `a0` are bytes.
    HexPattern = 1,
    /// In a jump of a hex pattern, from behind its `[`: `10` is a number.
    HexJump = 2,
}

impl Mode {
    /// The number of the mode, as the C header has it.
    pub const fn number(self) -> u32 {
        self as u32
    }

    /// The mode of a number that the library wrote.
    pub(crate) fn of(number: u32) -> Mode {
        match number {
            0 => Mode::Normal,
            1 => Mode::HexPattern,
            2 => Mode::HexJump,
            _ => panic!("the library gave the mode {number}, which is none of its interface"),
        }
    }
}
