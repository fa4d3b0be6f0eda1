//! A sequence of calls on one window, with what document 01 answers to each and whether the Rust can be held to it.
use super::model::{Answer, Call, Source, Token, Window};
use crate::tally::listed;
use reading::plain::{self, Mode};

/// A source that is read by the scanner written from document 01.
pub struct Plain<'a>(pub &'a [u8]);

impl Source for Plain<'_> {
    fn scan(&self, place: u32, mode: u32) -> Option<(Token, u32)> {
        let mode = [Mode::Normal, Mode::Pattern, Mode::Jump][mode as usize];
        let (token, reached) = plain::scan(self.0, place as usize, mode)?;
        Some(([token.kind, token.start, token.end], reached as u32))
    }
}

/// Where a call stands towards document 01's domain of equality with the Rust.
#[derive(Clone, Copy, PartialEq, Eq, Debug)]
pub enum Standing {
    /// The Rust must answer alike.
    Inside,
    /// It is refused, so it changes nothing: the Rust is not asked, and the others must agree without it.
    Refused,
    /// A next that hands out token i while bookmarks live and all exceed i + 1: the least of them.
    Edge(usize),
    /// It asks for a token behind the first 81 or 82.
    BehindUnknown,
    /// A peek with n above 65,535.
    FarPeek,
}

impl Standing {
    /// How a call that the Rust cannot be held to leaves the domain.
    pub fn way_out(self) -> Option<&'static str> {
        match self {
            Standing::BehindUnknown => Some("a call asks behind the first 81 or 82"),
            Standing::FarPeek => Some("a peek goes further than 65,535"),
            _ => None,
        }
    }
}

/// A call, the index of the token that it wants, document 01's answer, and where it stands.
pub struct Step {
    pub call: Call,
    pub wants: Option<usize>,
    pub answer: Answer,
    pub standing: Standing,
}

/// The calls so far on a source, over a room.
pub struct Sequence<'a> {
    pub src: &'a [u8],
    /// The room as it was lent.
    pub lent: Vec<u32>,
    pub window: Window<Plain<'a>>,
    pub steps: Vec<Step>,
}

impl<'a> Sequence<'a> {
    /// No call yet.
    pub fn open(src: &'a [u8], lent: Vec<u32>) -> Self {
        Sequence { src, window: Window::open(Plain(src), lent.clone()), lent, steps: Vec::new() }
    }

    /// One call more.
    pub fn call(&mut self, call: Call) {
        let wants = call.wants(self.window.current);
        let answer = self.window.answer(call);
        let standing = self.standing(call, wants, answer);
        self.steps.push(Step { call, wants, answer, standing });
    }

    /// Where a call that was just answered stands.
    fn standing(&self, call: Call, wants: Option<usize>, answer: Answer) -> Standing {
        let unknown = self.window.fetched.iter().position(|token| token[0] >= 81);
        match (call, answer, self.window.bookmarks.iter().min()) {
            (_, Answer::Refused(_), _) => Standing::Refused,
            (Call::Peek(n), ..) if n > 65_535 => Standing::FarPeek,
            _ if unknown.is_some_and(|unknown| wants > Some(unknown)) => Standing::BehindUnknown,
            (Call::Next, Answer::Token(_), Some(&least)) if least > self.window.current => Standing::Edge(least),
            _ => Standing::Inside,
        }
    }

    /// The names of the calls, with the numbers of refusals.
    pub fn names(&self) -> impl Iterator<Item = (&'static str, Option<u32>)> + Clone {
        self.steps.iter().map(|step| (step.call.name(), step.answer.refusal()))
    }

    /// What was found at the call of a number.
    pub fn at(&self, k: usize, found: &str) -> String {
        format!("call {k}, {}: {found}", self.steps[k].call)
    }

    /// Source, slots and the first calls in words.
    pub fn words(&self, first: usize) -> String {
        let calls = listed(self.steps[..first].iter().map(|step| step.call));
        format!("source `{}`, {} slots: {calls}", self.src.escape_ascii(), self.lent.len() / 3)
    }
}
