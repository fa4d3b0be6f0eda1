//! The calls of a window and their answers: as the numbers of the port's scripts, in words, and put to the Rust.
use super::model::{Answer, Call};
use crate::caught::caught;
use std::fmt::{Display, Formatter};

/// The calls by their numbers.
const NAMES: [&str; 9] = ["next", "peek", "has_more", "bookmark", "restore", "remove", "pattern", "jump", "index"];

impl Call {
    /// The two numbers of a script. `idle` stands where no argument is wanted; a number above all calls asks for the current index.
    pub fn numbers(self, idle: u32) -> [u32; 2] {
        match self {
            Call::Next => [0, idle],
            Call::Peek(n) => [1, n],
            Call::HasMore => [2, idle],
            Call::Bookmark => [3, idle],
            Call::Restore(i) => [4, i],
            Call::Remove(i) => [5, i],
            Call::Pattern => [6, idle],
            Call::Jump => [7, idle],
            Call::Index => [idle.max(8), idle],
        }
    }

    /// The call without its argument.
    pub fn name(self) -> &'static str {
        NAMES[self.numbers(0)[0] as usize]
    }

    /// The index of the token that the call wants, where it wants one.
    pub fn wants(self, current: usize) -> Option<usize> {
        match self {
            Call::Next | Call::HasMore => Some(current),
            Call::Peek(n) => Some(current + n as usize),
            _ => None,
        }
    }

    /// What the Rust answers, or none where it panics. A bookmark must be live.
    pub fn asked_of(self, rust: &mut rust::window::Window) -> Option<Answer> {
        let told = |token: Option<rust::Tok>| token.map_or(Answer::None, |token| Answer::Token([token.kind, token.start, token.end]));
        let done = |()| Answer::Done;
        caught(|| match self {
            Call::Next => told(rust.next()),
            Call::Peek(n) => told(rust.peek(n as usize)),
            Call::HasMore => Answer::Truth(rust.has_more()),
            Call::Bookmark => Answer::Index(rust.bookmark()),
            Call::Restore(i) => done(rust.restore(i as usize)),
            Call::Remove(i) => done(rust.remove(i as usize)),
            Call::Pattern => done(rust.pattern()),
            Call::Jump => done(rust.jump()),
            Call::Index => Answer::Index(rust.index()),
        })
    }
}

impl Display for Call {
    fn fmt(&self, f: &mut Formatter<'_>) -> std::fmt::Result {
        match self {
            Call::Peek(n) | Call::Restore(n) | Call::Remove(n) => write!(f, "{} {n}", self.name()),
            _ => write!(f, "{}", self.name()),
        }
    }
}

impl Answer {
    /// The number of a refusal.
    pub fn refusal(self) -> Option<u32> {
        if let Answer::Refused(number) = self { Some(number) } else { None }
    }

    /// The four numbers of an answer.
    pub fn numbers(self) -> [u32; 4] {
        match self {
            Answer::None => [0; 4],
            Answer::Token([kind, start, end]) => [1, kind, start, end],
            Answer::Truth(truth) => [2, truth as u32, 0, 0],
            Answer::Index(index) => [3, index as u32, 0, 0],
            Answer::Done => [4, 0, 0, 0],
            Answer::Refused(number) => [5, number, 0, 0],
        }
    }
}

/// An answer's four numbers in words.
pub fn words(numbers: &[u32]) -> String {
    match numbers {
        [0, ..] => "none".to_string(),
        [1, kind, start, end] => format!("{kind} {start}..{end}"),
        [2, truth, ..] => (*truth == 1).to_string(),
        [3, index, ..] => format!("index {index}"),
        [4, ..] => "done".to_string(),
        [5, number, ..] => format!("refused {number}"),
        _ => format!("{numbers:?}"),
    }
}

/// What the Rust answered, in words.
pub fn told(answer: Option<Answer>) -> String {
    answer.map_or("a panic".to_string(), |answer| words(&answer.numbers()))
}
