// SPDX-License-Identifier: BSD-3-Clause
//! The tokens of a source with lookahead and backtracking.
use crate::refusal::{done, found, sure};
use crate::{sys, Refusal, Token, SOURCE_LIMIT};
use std::fmt;

/// A place in a token stream to which it can go back, as [`TokenStream::bookmark`] gives it.
///
/// It is a plain number, the index of a token, and is tested where it is used: one that is not live is refused by [`Refusal::NotLive`].
#[derive(Clone, Copy, Debug, PartialEq, Eq, PartialOrd, Ord, Hash)]
#[must_use = "a bookmark stays live until it is removed, and 64 can be live"]
pub struct Bookmark(usize);

impl Bookmark {
    /// The bookmark of an index. Whether it is live, the stream says that it is handed to.
    pub const fn new(index: usize) -> Bookmark {
        Bookmark(index)
    }

    /// The index of the token that it stands at.
    pub const fn index(self) -> usize {
        self.0
    }

    /// The index as the library takes it; one that is too large for it is no token's.
    #[inline]
    fn number(self) -> u32 {
        u32::try_from(self.0).unwrap_or(u32::MAX)
    }
}

/// The tokens of a source, one after the other, which can be looked ahead at and gone back to.
///
/// The stream starts at the first token, in normal mode. It has room for every token that the source can have, so that
/// [`next_token`](Self::next_token), [`peek_token`](Self::peek_token) and [`has_more`](Self::has_more) are never refused. That takes 12
/// bytes of memory for each byte of the source; [`with_slots`](Self::with_slots) gives a stream for less.
///
/// No token is lost, whatever the order of the calls. The stream borrows its source and shares nothing else: it is `Send` and `Sync`, and a
/// clone goes on by itself.
///
/// ```
/// use warpthistle::{Kind, TokenStream};
///
/// let src = b"rule till { condition: true }";
/// let mut stream = TokenStream::new(src)?;
///
/// // look ahead
/// assert_eq!(stream.peek_token(2).unwrap().text(src), b"till");
///
/// // read on from a bookmark, and go back to it
/// let start = stream.bookmark()?;
/// while stream.next_token().is_some_and(|token| token.kind != Kind::LBrace) {}
/// assert_eq!(stream.current_token_index(), 5);
/// stream.restore_bookmark(&start)?;
/// stream.remove_bookmark(start)?;
///
/// assert_eq!(stream.next_token().unwrap().kind, Kind::RuleKw);
/// # Ok::<(), warpthistle::Refusal>(())
/// ```
#[derive(Clone)]
pub struct TokenStream<'src>(TightTokenStream<'src>);

impl<'src> TokenStream<'src> {
    /// A stream at the start of a source, in normal mode.
    ///
    /// # Errors
    ///
    /// [`Refusal::SourceTooLong`]: the source has more than [`SOURCE_LIMIT`] bytes.
    ///
    /// # Panics
    ///
    /// Where the library that is linked is not of the version that this crate was made for.
    pub fn new(src: &'src [u8]) -> Result<Self, Refusal> {
        Self::with_slots(src, src.len()).map(TokenStream)
    }

    /// A stream that keeps at most so many tokens, for tight memory: 12 bytes each.
    ///
    /// Kept are the tokens from the earliest bookmark, or the current token where that comes first, up to the last one looked at. Where
    /// one more would be kept than there are slots, a call is refused.
    ///
    /// # Errors
    ///
    /// [`Refusal::SourceTooLong`]: the source has more than [`SOURCE_LIMIT`] bytes.
    ///
    /// # Panics
    ///
    /// Where the library that is linked is not of the version that this crate was made for.
    pub fn with_slots(src: &'src [u8], slots: usize) -> Result<TightTokenStream<'src>, Refusal> {
        TightTokenStream::new(src, slots)
    }

    /// The source.
    #[inline]
    pub fn source(&self) -> &'src [u8] {
        self.0.src
    }

    /// The index of the current token, which is the one that [`next_token`](Self::next_token) gives. The first token has index 0.
    ///
    /// ```
    /// let mut stream = warpthistle::TokenStream::new(b"a b")?;
    /// stream.next_token();
    /// assert_eq!(stream.current_token_index(), 1);
    /// # Ok::<(), warpthistle::Refusal>(())
    /// ```
    #[inline]
    pub fn current_token_index(&self) -> usize {
        self.0.current_token_index()
    }

    /// Gives the current token, and goes on to the next one. `None` at the end, where the stream stays.
    ///
    /// ```
    /// let mut stream = warpthistle::TokenStream::new(b"a b")?;
    /// let mut spans = Vec::new();
    /// while let Some(token) = stream.next_token() {
    ///     spans.push(token.span());
    /// }
    /// assert_eq!(spans, [0..1, 1..2, 2..3]);
    /// # Ok::<(), warpthistle::Refusal>(())
    /// ```
    #[inline]
    pub fn next_token(&mut self) -> Option<Token> {
        sure(self.0.next_token())
    }

    /// Gives the token n after the current one, and stays where it is: with 0 the current one. `None` past the end.
    ///
    /// ```
    /// let mut stream = warpthistle::TokenStream::new(b"a b")?;
    /// assert_eq!(stream.peek_token(2).unwrap().span(), 2..3);
    /// assert_eq!(stream.peek_token(3), None);
    /// assert_eq!(stream.next_token().unwrap().span(), 0..1);
    /// # Ok::<(), warpthistle::Refusal>(())
    /// ```
    #[inline]
    pub fn peek_token(&mut self, n: usize) -> Option<Token> {
        sure(self.0.peek_token(n))
    }

    /// Whether there is a current token, as [`peek_token(0)`](Self::peek_token) would say.
    #[inline]
    pub fn has_more(&mut self) -> bool {
        sure(self.0.has_more())
    }

    /// Sets a bookmark at the current token. It is live until it is removed; two at the same token are two bookmarks.
    ///
    /// # Errors
    ///
    /// [`Refusal::TooManyBookmarks`]: 64 are live.
    #[inline]
    pub fn bookmark(&mut self) -> Result<Bookmark, Refusal> {
        self.0.bookmark()
    }

    /// Goes back, or on, to a bookmark, which stays live.
    ///
    /// # Errors
    ///
    /// [`Refusal::NotLive`]: it was removed, or is one of another stream.
    #[inline]
    pub fn restore_bookmark(&mut self, bookmark: &Bookmark) -> Result<(), Refusal> {
        self.0.restore_bookmark(bookmark)
    }

    /// Drops a bookmark. Where two stand at its token, the other one stays live.
    ///
    /// # Errors
    ///
    /// [`Refusal::NotLive`]: it was removed before, or is one of another stream.
    #[inline]
    pub fn remove_bookmark(&mut self, bookmark: Bookmark) -> Result<(), Refusal> {
        self.0.remove_bookmark(bookmark)
    }

    /// Switches to hex pattern mode, as a parser does behind the `{` of a hex pattern.
    ///
    /// The switch acts behind the last token that was read, looked at or not: tokens that were looked ahead at stay as they are. The stream
    /// falls back to normal mode by itself, where no token of a hex pattern begins, as at the closing `}`.
    ///
    /// ```
    /// use warpthistle::{Kind, TokenStream};
    /// let mut stream = TokenStream::new(b"{a0[10]}")?;
    /// let mut kinds = Vec::new();
    /// while let Some(token) = stream.next_token() {
    ///     match token.kind {
    ///         Kind::LBrace => stream.enter_hex_pattern_mode(),
    ///         Kind::LBracket => stream.enter_hex_jump_mode(),
    ///         _ => {}
    ///     }
    ///     kinds.push(token.kind);
    /// }
    /// assert_eq!(kinds, [Kind::LBrace, Kind::HexByte, Kind::LBracket, Kind::IntegerLit, Kind::RBracket, Kind::RBrace]);
    /// # Ok::<(), warpthistle::Refusal>(())
    /// ```
    pub fn enter_hex_pattern_mode(&mut self) {
        self.0.enter_hex_pattern_mode();
    }

    /// Switches to hex jump mode, as a parser does behind the `[` of a jump in a hex pattern.
    ///
    /// The switch acts as that to [hex pattern mode](Self::enter_hex_pattern_mode), to which the stream falls back by itself, as at the
    /// closing `]`.
    pub fn enter_hex_jump_mode(&mut self) {
        self.0.enter_hex_jump_mode();
    }
}

/// Writes how long the source is, and the current index.
impl fmt::Debug for TokenStream<'_> {
    fn fmt(&self, f: &mut fmt::Formatter<'_>) -> fmt::Result {
        self.0.written(f, "TokenStream")
    }
}

/// A [`TokenStream`] that keeps at most so many tokens, as [`TokenStream::with_slots`] gives it.
///
/// Its calls are those of [`TokenStream`]. The three that read tokens can be refused by [`Refusal::WindowFull`]; the call may be made again
/// once a bookmark is gone.
///
/// ```
/// use warpthistle::{Refusal, TokenStream};
/// let mut stream = TokenStream::with_slots(b"a b", 1)?;
/// assert_eq!(stream.peek_token(0)?.unwrap().span(), 0..1);
/// assert_eq!(stream.peek_token(1), Err(Refusal::WindowFull));
/// assert_eq!(stream.next_token()?.unwrap().span(), 0..1);
/// assert_eq!(stream.next_token()?.unwrap().span(), 1..2);
/// # Ok::<(), Refusal>(())
/// ```
#[derive(Clone)]
pub struct TightTokenStream<'src> {
    src: &'src [u8],
    window: sys::Window,
    room: Box<[u32]>,
}

impl<'src> TightTokenStream<'src> {
    /// A stream at the start of a source. No source has more tokens than bytes, so more slots than bytes are of no use, and none is made.
    fn new(src: &'src [u8], slots: usize) -> Result<Self, Refusal> {
        crate::must_fit();
        let slots = slots.min(src.len()).min(SOURCE_LIMIT);
        let mut stream = TightTokenStream { src, window: sys::Window::new(), room: vec![0; 3 * slots].into() };
        done(stream.window.open(src, &stream.room))?;
        Ok(stream)
    }

    /// The source.
    #[inline]
    pub fn source(&self) -> &'src [u8] {
        self.src
    }

    /// The index of the current token: [`TokenStream::current_token_index`].
    #[inline]
    pub fn current_token_index(&self) -> usize {
        let mut index = 0;
        sure(done(self.window.current_token_index(self.src, &self.room, &mut index)));
        index as usize
    }

    /// Gives the current token, and goes on to the next one: [`TokenStream::next_token`].
    ///
    /// # Errors
    ///
    /// [`Refusal::WindowFull`]: there is no slot for the token.
    #[inline]
    pub fn next_token(&mut self) -> Result<Option<Token>, Refusal> {
        let mut token = sys::RawToken([0; 3]);
        let found = found(self.window.next_token(self.src, &mut self.room, &mut token))?;
        Ok(found.then(|| Token::of(token)))
    }

    /// Gives the token n after the current one: [`TokenStream::peek_token`].
    ///
    /// # Errors
    ///
    /// [`Refusal::WindowFull`]: there is no slot for it, or for a token before it.
    #[inline]
    pub fn peek_token(&mut self, n: usize) -> Result<Option<Token>, Refusal> {
        let mut token = sys::RawToken([0; 3]);
        let found = found(self.window.peek_token(self.src, &mut self.room, n, &mut token))?;
        Ok(found.then(|| Token::of(token)))
    }

    /// Whether there is a current token: [`TokenStream::has_more`].
    ///
    /// # Errors
    ///
    /// [`Refusal::WindowFull`]: there is no slot for it.
    #[inline]
    pub fn has_more(&mut self) -> Result<bool, Refusal> {
        found(self.window.has_more(self.src, &mut self.room))
    }

    /// Sets a bookmark at the current token: [`TokenStream::bookmark`].
    ///
    /// # Errors
    ///
    /// [`Refusal::TooManyBookmarks`]: 64 are live.
    #[inline]
    pub fn bookmark(&mut self) -> Result<Bookmark, Refusal> {
        let mut index = 0;
        done(self.window.bookmark(self.src, &self.room, &mut index))?;
        Ok(Bookmark(index as usize))
    }

    /// Goes back, or on, to a bookmark: [`TokenStream::restore_bookmark`].
    ///
    /// # Errors
    ///
    /// [`Refusal::NotLive`]: it was removed, or is one of another stream.
    #[inline]
    pub fn restore_bookmark(&mut self, bookmark: &Bookmark) -> Result<(), Refusal> {
        done(self.window.restore_bookmark(self.src, &self.room, bookmark.number()))
    }

    /// Drops a bookmark: [`TokenStream::remove_bookmark`].
    ///
    /// # Errors
    ///
    /// [`Refusal::NotLive`]: it was removed before, or is one of another stream.
    #[inline]
    pub fn remove_bookmark(&mut self, bookmark: Bookmark) -> Result<(), Refusal> {
        done(self.window.remove_bookmark(self.src, &self.room, bookmark.number()))
    }

    /// Switches to hex pattern mode: [`TokenStream::enter_hex_pattern_mode`].
    pub fn enter_hex_pattern_mode(&mut self) {
        sure(done(self.window.enter_hex_pattern_mode(self.src, &self.room)));
    }

    /// Switches to hex jump mode: [`TokenStream::enter_hex_jump_mode`].
    pub fn enter_hex_jump_mode(&mut self) {
        sure(done(self.window.enter_hex_jump_mode(self.src, &self.room)));
    }

    /// What `Debug` writes of a stream.
    fn written(&self, f: &mut fmt::Formatter<'_>, name: &str) -> fmt::Result {
        let mut fields = f.debug_struct(name);
        fields.field("source_len", &self.src.len()).field("slots", &(self.room.len() / 3));
        fields.field("current_token_index", &self.current_token_index()).finish()
    }
}

/// Writes how long the source is, how many slots there are, and the current index.
impl fmt::Debug for TightTokenStream<'_> {
    fn fmt(&self, f: &mut fmt::Formatter<'_>) -> fmt::Result {
        self.written(f, "TightTokenStream")
    }
}
