// SPDX-License-Identifier: BSD-3-Clause
//! All tokens of a source, from a place on.
use crate::refusal::{done, sure};
use crate::{sys, Mode, Refusal, Token};
use std::fmt;
use std::iter::FusedIterator;

/// How many tokens are asked for at once.
const PIECE: usize = 64;

/// The tokens of a source from a place on, in a mode: an iterator.
///
/// It takes some 800 bytes, whatever the source is. It reads ahead by itself and cannot go back: for that there is
/// [`TokenStream`](crate::TokenStream).
///
/// [`place`](Self::place) and [`mode`](Self::mode) say where it stands behind the token that it gave last. There an editor goes on after an
/// edit behind that place, with the new source, and there a parser goes on in another mode.
///
/// ```
/// use warpthistle::{Kind, Mode, Tokens};
///
/// let src = b"$a = { 9C ?? }";
/// let mut tokens = Tokens::new(src)?;
/// tokens.find(|token| token.kind == Kind::LBrace);
/// assert_eq!((tokens.place(), tokens.mode()), (6, Mode::Normal));
///
/// let pattern = Tokens::at(src, tokens.place(), Mode::HexPattern)?;
/// let bytes: Vec<_> = pattern.filter(|token| token.kind == Kind::HexByte).map(|token| token.span()).collect();
/// assert_eq!(bytes, [7..9, 10..12]);
/// # Ok::<(), warpthistle::Refusal>(())
/// ```
#[derive(Clone)]
pub struct Tokens<'src> {
    src: &'src [u8],
    /// Behind the token that was given last.
    place: usize,
    /// The place and the mode behind the tokens that were read. In a mode that a token can end, no token is read ahead.
    read_to: u32,
    mode: u32,
    /// The tokens that were read, three numbers each: how many they are, and how many of them were given.
    piece: [u32; 3 * PIECE],
    count: usize,
    given: usize,
}

impl<'src> Tokens<'src> {
    /// All tokens of a source, in normal mode.
    ///
    /// # Errors
    ///
    /// [`Refusal::SourceTooLong`]: the source has more than [`SOURCE_LIMIT`](crate::SOURCE_LIMIT) bytes.
    ///
    /// # Panics
    ///
    /// Where the library that is linked is not of the version that this crate was made for.
    pub fn new(src: &'src [u8]) -> Result<Self, Refusal> {
        Self::at(src, 0, Mode::Normal)
    }

    /// The tokens of a source from a place on, which is a number of bytes, in a mode.
    ///
    /// # Errors
    ///
    /// [`Refusal::SourceTooLong`]: the source has more than [`SOURCE_LIMIT`](crate::SOURCE_LIMIT) bytes.
    /// [`Refusal::NotAsOpened`]: the place is past the source.
    ///
    /// # Panics
    ///
    /// Where the library that is linked is not of the version that this crate was made for.
    pub fn at(src: &'src [u8], place: usize, mode: Mode) -> Result<Self, Refusal> {
        crate::must_fit();
        let read_to = u32::try_from(place).unwrap_or(u32::MAX);
        let mut tokens = Tokens { src, place, read_to, mode: mode.number(), piece: [0; 3 * PIECE], count: 0, given: 0 };
        // room for no token: what is wrong is said here, and not later
        tokens.read(0)?;
        Ok(tokens)
    }

    /// The source.
    pub fn source(&self) -> &'src [u8] {
        self.src
    }

    /// The place behind the token that was given last; before the first one, where the iterator began.
    pub fn place(&self) -> usize {
        self.place
    }

    /// The mode behind the token that was given last; before the first one, that in which the iterator began.
    pub fn mode(&self) -> Mode {
        Mode::of(self.mode)
    }

    /// Reads the next tokens, at most so many.
    fn read(&mut self, most: usize) -> Result<(), Refusal> {
        let mut count = 0;
        done(sys::some_tokens(self.src, &mut self.read_to, &mut self.mode, &mut self.piece[..3 * most], &mut count))?;
        self.count = count as usize;
        self.given = 0;
        Ok(())
    }
}

impl Iterator for Tokens<'_> {
    type Item = Token;

    #[inline]
    fn next(&mut self) -> Option<Token> {
        if self.given == self.count {
            // normal mode stays; another one is to be told behind each token
            let most = if self.mode == Mode::Normal.number() { PIECE } else { 1 };
            sure(self.read(most));
        }
        if self.given == self.count {
            return None;
        }
        let at = 3 * self.given;
        let token = Token::of(sys::RawToken([self.piece[at], self.piece[at + 1], self.piece[at + 2]]));
        self.given += 1;
        self.place = token.end as usize;
        Some(token)
    }

    /// At least one token while bytes are left, and at most one for each.
    fn size_hint(&self) -> (usize, Option<usize>) {
        let left = self.src.len() - self.place;
        (left.min(1), Some(left))
    }
}

impl FusedIterator for Tokens<'_> {}

/// Writes how long the source is, the place and the mode.
impl fmt::Debug for Tokens<'_> {
    fn fmt(&self, f: &mut fmt::Formatter<'_>) -> fmt::Result {
        let mut fields = f.debug_struct("Tokens");
        fields.field("source_len", &self.src.len()).field("place", &self.place()).field("mode", &self.mode()).finish()
    }
}
