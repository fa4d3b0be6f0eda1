//! A sequence of calls on one event stream, with what document 01 answers to each and whether the Rust can be held to it.
use super::model::{Answer, Call, Stream, TOKEN};
use crate::tally::listed;
use rust::events::last_kind;

/// Where a call stands towards document 01's domain of equality with the Rust.
#[derive(Clone, Copy, PartialEq, Eq, Debug)]
pub enum Standing {
    /// The Rust must answer alike.
    Inside,
    /// It is refused by this number, so it changes nothing: the Rust is not asked, and the others must agree without it.
    Refused(u32),
    Outside(Outside),
}

/// Why a call lies outside of the domain.
#[derive(Clone, Copy, PartialEq, Eq, Debug)]
pub enum Outside {
    /// A truncation that leaves no Token event after one was popped.
    Forgets,
    /// A token that starts before the last token's end.
    Overlaps,
    /// A position that is no live bookmark's, or a kind that the Rust does not have: it cannot be asked.
    Foreign,
    /// A refused call that is put to the Rust all the same.
    Tried,
}

impl Outside {
    /// In words.
    pub fn words(self) -> &'static str {
        match self {
            Outside::Forgets => "a truncation leaves no Token event after one was popped",
            Outside::Overlaps => "a token starts before the last one's end",
            Outside::Foreign => "a position or kind is not the Rust's",
            Outside::Tried => "a refused call is put to the Rust",
        }
    }
}

/// A call, document 01's answer, the answer if the last token popped were always forgotten, and where the call stands.
pub struct Step {
    pub call: Call,
    pub answer: Answer,
    pub forgetful: Answer,
    pub standing: Standing,
    /// Whether the Rust can be asked, though the call be refused.
    pub native: bool,
}

/// The calls so far over a ring and open places.
pub struct Sequence {
    /// The rooms as they were lent.
    pub lent: (Vec<u32>, Vec<usize>),
    pub stream: Stream,
    forgetful: Stream,
    /// The positions of the live bookmarks.
    pub bookmarks: Vec<usize>,
    pub steps: Vec<Step>,
}

impl Sequence {
    /// No call yet.
    pub fn open(room: Vec<u32>, places: Vec<usize>) -> Sequence {
        let stream = || Stream::open(room.clone(), places.clone());
        Sequence { stream: stream(), forgetful: stream(), lent: (room, places), bookmarks: Vec::new(), steps: Vec::new() }
    }

    /// One call more.
    pub fn call(&mut self, call: Call) {
        let (before, native) = (self.standing(call), self.is_native(call));
        let answer = self.stream.answer(call);
        self.forgetful.popped = None;
        let forgetful = self.forgetful.answer(call);
        self.follow_bookmarks(call, answer);
        let standing = if let Answer::Refused(number) = answer { Standing::Refused(number) } else { before };
        self.steps.push(Step { call, answer, forgetful, standing, native });
    }

    /// Where a call stands, if it is taken.
    pub fn standing(&self, call: Call) -> Standing {
        match call {
            _ if !self.is_native(call) => Standing::Outside(Outside::Foreign),
            Call::Token(_, [start, _]) if start < self.stream.last[1] => Standing::Outside(Outside::Overlaps),
            Call::Truncate(position) if self.stream.popped.is_some() && !self.has_token(position) => Standing::Outside(Outside::Forgets),
            _ => Standing::Inside,
        }
    }

    /// Whether the Rust has the call's kind, and has made the bookmark that it names.
    fn is_native(&self, call: Call) -> bool {
        match call {
            Call::Token(kind, _) | Call::Begin(kind) => kind <= last_kind(),
            Call::Truncate(position) | Call::Remove(position) => self.bookmarks.contains(&position),
            _ => true,
        }
    }

    /// Whether a Token event stands before a position.
    fn has_token(&self, position: usize) -> bool {
        self.stream.events.iter().take(position).any(|event| event[0] == TOKEN)
    }

    /// Notes a new bookmark's position, or forgets a removed one's.
    fn follow_bookmarks(&mut self, call: Call, answer: Answer) {
        match (call, answer) {
            (_, Answer::Position(position)) => self.bookmarks.push(position),
            (Call::Remove(position), Answer::Done) => {
                let place = self.bookmarks.iter().position(|&bookmark| bookmark == position).unwrap_or(0);
                self.bookmarks.swap_remove(place);
            }
            _ => {}
        }
    }

    /// The names of the calls, with the numbers of refusals.
    pub fn names(&self) -> impl Iterator<Item = (&'static str, Option<u32>)> + Clone {
        self.steps.iter().map(|step| (step.call.name(), step.answer.refusal()))
    }

    /// What was found at the call of a number.
    pub fn at(&self, k: usize, found: &str) -> String {
        format!("call {k}, {}: {found}", self.steps[k].call)
    }

    /// Slots, places and the first calls in words.
    pub fn words(&self, first: usize) -> String {
        let (room, places) = &self.lent;
        format!("{} slots, {} places: {}", room.len() / 4, places.len(), listed(self.steps[..first].iter().map(|step| step.call)))
    }
}
