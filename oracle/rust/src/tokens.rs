//! The Rust's tokenizer.
use crate::kinds::numbered;
use crate::tokenizer::Tokenizer;
use crate::{Mode, Tok};

/// A source that is read token by token, in normal mode at first.
pub struct Tokens<'a>(Tokenizer<'a>);

impl<'a> Tokens<'a> {
    /// Opens a source.
    pub fn open(src: &'a [u8]) -> Self {
        Tokens(Tokenizer::new(src))
    }

    /// Enters a hex mode. The Rust has no call that enters normal mode: a source that was just opened is in it.
    pub fn enter(&mut self, mode: Mode) {
        match mode {
            Mode::Normal => {}
            Mode::Pattern => self.0.enter_hex_pattern_mode(),
            Mode::Jump => self.0.enter_hex_jump_mode(),
        }
    }
}

impl Iterator for Tokens<'_> {
    type Item = Tok;

    fn next(&mut self) -> Option<Tok> {
        self.0.next_token().map(|token| numbered(&token))
    }
}
