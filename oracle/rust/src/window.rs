//! The Rust's token stream.
use crate::Tok;
use crate::kinds::numbered;
use crate::parser::token_stream::{Bookmark, TokenStream};
use crate::tokenizer::Tokenizer;

/// A token stream. Bookmarks, which in the Rust are values that the caller keeps, are named by their index.
pub struct Window<'a> {
    stream: TokenStream<'a>,
    bookmarks: Vec<(usize, Bookmark)>,
}

impl<'a> Window<'a> {
    /// Opens a stream on a source, in normal mode.
    pub fn open(src: &'a [u8]) -> Self {
        Window { stream: TokenStream::new(Tokenizer::new(src)), bookmarks: Vec::new() }
    }

    /// The current token, which is passed.
    pub fn next(&mut self) -> Option<Tok> {
        self.stream.next_token().as_ref().map(numbered)
    }

    /// The token so many behind the current one.
    pub fn peek(&mut self, n: usize) -> Option<Tok> {
        self.stream.peek_token(n).map(numbered)
    }

    /// Whether there is a current token.
    pub fn has_more(&mut self) -> bool {
        self.stream.has_more()
    }

    /// The index of the current token.
    pub fn index(&self) -> usize {
        self.stream.current_token_index()
    }

    /// Makes a bookmark and answers its index.
    pub fn bookmark(&mut self) -> usize {
        let index = self.index();
        self.bookmarks.push((index, self.stream.bookmark()));
        index
    }

    /// Rewinds to a bookmark at the index, which must be live.
    pub fn restore(&mut self, index: usize) {
        self.stream.restore_bookmark(&self.bookmarks[self.live(index)].1);
    }

    /// Removes one bookmark at the index, which must be live.
    pub fn remove(&mut self, index: usize) {
        let place = self.live(index);
        self.stream.remove_bookmark(self.bookmarks.swap_remove(place).1);
    }

    /// Enters pattern mode behind the last token fetched.
    pub fn pattern(&mut self) {
        self.stream.enter_hex_pattern_mode();
    }

    /// Enters jump mode behind the last token fetched.
    pub fn jump(&mut self) {
        self.stream.enter_hex_jump_mode();
    }

    /// Whether a bookmark at the index lives.
    pub fn is_live(&self, index: usize) -> bool {
        self.bookmarks.iter().any(|(i, _)| *i == index)
    }

    /// Where a live bookmark of the index is kept.
    fn live(&self, index: usize) -> usize {
        self.bookmarks.iter().position(|(i, _)| *i == index).expect("a live bookmark")
    }
}
