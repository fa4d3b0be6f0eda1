//! The calls of an event stream and their answers: as the numbers of the port's scripts, in words, and put to the Rust.
use super::model::{Answer, Call};
use crate::caught::caught;
use std::fmt::{Display, Formatter};

/// The calls by their numbers.
const NAMES: [&str; 9] = ["token", "error", "begin", "end", "end_with_error", "bookmark", "truncate", "remove", "pop"];

impl Call {
    /// The four numbers of a script. `idle` stands where no argument is wanted and above the 16 bits of a kind; a number above all calls
    /// pops.
    pub fn numbers(self, idle: u32) -> [u32; 4] {
        let wide = |kind: u32| kind | idle << 16;
        match self {
            Call::Token(kind, [start, end]) => [0, wide(kind), start, end],
            Call::Error(message, [start, end]) => [1, wide(message), start, end],
            Call::Begin(kind) => [2, wide(kind), idle, idle],
            Call::End => [3, idle, idle, idle],
            Call::EndWithError => [4, idle, idle, idle],
            Call::Bookmark => [5, idle, idle, idle],
            Call::Truncate(position) => [6, position as u32, idle, idle],
            Call::Remove(position) => [7, position as u32, idle, idle],
            Call::Pop => [idle.max(8), idle, idle, idle],
        }
    }

    /// The call without its arguments.
    pub fn name(self) -> &'static str {
        NAMES[self.numbers(0)[0] as usize]
    }

    /// What the Rust answers, or none where it panics. A position must be a live bookmark's.
    pub fn asked_of(self, rust: &mut rust::events::Events) -> Option<Answer> {
        let done = |()| Answer::Done;
        caught(|| match self {
            Call::Token(kind, [start, end]) => done(rust.token(kind, start, end)),
            Call::Error(message, [start, end]) => done(rust.error(message, start, end)),
            Call::Begin(kind) => done(rust.begin(kind)),
            Call::End => done(rust.end()),
            Call::EndWithError => done(rust.end_with_error()),
            Call::Bookmark => Answer::Position(rust.bookmark()),
            Call::Truncate(position) => done(rust.truncate(position)),
            Call::Remove(position) => done(rust.remove(position)),
            Call::Pop => rust.pop().map_or(Answer::None, Answer::Event),
        })
    }
}

impl Display for Call {
    fn fmt(&self, f: &mut Formatter<'_>) -> std::fmt::Result {
        match self {
            Call::Token(number, [start, end]) | Call::Error(number, [start, end]) => write!(f, "{} {number} {start} {end}", self.name()),
            Call::Begin(kind) => write!(f, "{} {kind}", self.name()),
            Call::Truncate(position) | Call::Remove(position) => write!(f, "{} {position}", self.name()),
            _ => write!(f, "{}", self.name()),
        }
    }
}

impl Answer {
    /// The number of a refusal.
    pub fn refusal(self) -> Option<u32> {
        if let Answer::Refused(number) = self { Some(number) } else { None }
    }

    /// The five numbers of an answer.
    pub fn numbers(self) -> [usize; 5] {
        match self {
            Answer::None => [0; 5],
            Answer::Event([tag, kind, start, end]) => [1, tag as usize, kind as usize, start as usize, end as usize],
            Answer::Position(position) => [3, position, 0, 0, 0],
            Answer::Done => [4, 0, 0, 0, 0],
            Answer::Refused(number) => [5, number as usize, 0, 0, 0],
        }
    }
}

/// An answer's five numbers in words.
pub fn words(numbers: &[usize]) -> String {
    match numbers {
        [0, ..] => "none".to_string(),
        [1, tag, kind, start, end] => format!("{tag} {kind} {start} {end}"),
        [3, position, ..] => format!("position {position}"),
        [4, ..] => "done".to_string(),
        [5, number, ..] => format!("refused {number}"),
        _ => format!("{numbers:?}"),
    }
}

/// What the Rust answered, in words.
pub fn told(answer: Option<Answer>) -> String {
    answer.map_or("a panic".to_string(), |answer| words(&answer.numbers()))
}
