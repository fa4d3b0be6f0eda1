//! The tokenizer that the grammar parser reads from: the Rust's own or the plain reading of document 01, behind a record of what is asked.
#[allow(dead_code)]
#[rustfmt::skip]
#[path = "../../../docs/src/src/tokenizer/mod.rs"]
mod rust;

use crate::kinds::{numbered, token_of};
use reading::plain::{self, Mode, Tok};
use std::cell::{Cell, RefCell};

pub(crate) use rust::{Token, TokenId};

/// Which tokens the parser is given.
#[derive(Clone, Copy, PartialEq, Eq)]
pub enum Tokens {
    /// Those of the Rust's tokenizer.
    Rust,
    /// Document 01's, by plain.rs.
    Plain,
}

/// What was asked of a tokenizer: the tokens that were fetched, and the switches, each with how many tokens were fetched before it.
type Asked = (Vec<Tok>, Vec<(usize, Mode)>);

thread_local! {
    // The grammar parser makes its tokenizer itself, and hides it: what to give and what was asked go past it.
    static CHOICE: Cell<Tokens> = const { Cell::new(Tokens::Rust) };
    static ASKED: RefCell<Asked> = RefCell::default();
}

/// Forgets what was asked, and chooses which tokens the next tokenizer gives.
pub fn choose(tokens: Tokens) {
    CHOICE.set(tokens);
    ASKED.take();
}

/// What was asked since the choice.
pub fn asked() -> Asked {
    ASKED.take()
}

/// Has the calls of the Rust's tokenizer that the token stream makes.
pub struct Tokenizer<'src> {
    rust: rust::Tokenizer<'src>,
    plain: Option<(usize, Mode)>,
}

impl<'src> Tokenizer<'src> {
    pub fn new(source: &'src [u8]) -> Self {
        let plain = (CHOICE.get() == Tokens::Plain).then_some((0, Mode::Normal));
        Tokenizer { rust: rust::Tokenizer::new(source), plain }
    }

    pub fn source(&self) -> &'src [u8] {
        self.rust.source()
    }

    pub fn next_token(&mut self) -> Option<Token> {
        let token = match &mut self.plain {
            None => self.rust.next_token()?,
            Some((place, mode)) => {
                let (tok, reached) = plain::scan(self.rust.source(), *place, *mode)?;
                (*place, *mode) = (tok.end as usize, reached);
                token_of(&tok)
            }
        };
        ASKED.with_borrow_mut(|(tokens, _)| tokens.push(numbered(&token)));
        Some(token)
    }

    pub fn enter_hex_pattern_mode(&mut self) {
        self.enter(Mode::Pattern, rust::Tokenizer::enter_hex_pattern_mode);
    }

    pub fn enter_hex_jump_mode(&mut self) {
        self.enter(Mode::Jump, rust::Tokenizer::enter_hex_jump_mode);
    }

    /// Enters a mode, by the Rust's call where its tokens are given.
    fn enter(&mut self, mode: Mode, call: fn(&mut rust::Tokenizer<'src>)) {
        match &mut self.plain {
            None => call(&mut self.rust),
            Some((_, now)) => *now = mode,
        }
        ASKED.with_borrow_mut(|(tokens, switches)| switches.push((tokens.len(), mode)));
    }
}
