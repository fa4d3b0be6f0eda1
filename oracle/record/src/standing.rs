//! The events that stand in a stream, as far as the domain of equality and the room that is needed depend on them.
use crate::number;

/// An event that stands.
enum Event {
    Begin,
    End,
    /// A token, by its end.
    Token(u32),
    Error,
}

/// What stands after calls that are inside document 01's domain of equality.
#[derive(Default)]
pub struct Standing {
    events: Vec<Event>,
    /// Where the Begins of the open nodes stand.
    opens: Vec<usize>,
    /// The end of the last token.
    pub last_end: u32,
    token_popped: bool,
}

impl Standing {
    /// How many events stand.
    pub fn count(&self) -> usize {
        self.events.len()
    }

    /// How many open places are needed now.
    pub fn places(&self) -> usize {
        self.opens.len()
    }

    /// How many slots are needed now: one for each event, and one for the End of each open node.
    pub fn slots(&self) -> usize {
        self.count() + self.places()
    }

    /// Follows a call.
    pub fn follow(&mut self, call: &str) {
        match call.split_whitespace().collect::<Vec<_>>().as_slice() {
            ["token", _, _, end] => self.token(number(end)),
            ["error", ..] => self.events.push(Event::Error),
            ["begin", _] => self.begin(),
            ["end"] => self.end(),
            ["end_error"] => self.end_with_error(),
            ["truncate", position] => self.truncate(number(position)),
            ["pop"] => self.pop(),
            _ => {}
        }
    }

    /// Pushes a token.
    fn token(&mut self, end: u32) {
        self.last_end = end;
        self.events.push(Event::Token(end));
    }

    /// Opens a node.
    fn begin(&mut self) {
        self.opens.push(self.count());
        self.events.push(Event::Begin);
    }

    /// Closes the node that was opened last.
    fn end(&mut self) {
        self.opens.pop();
        self.events.push(Event::End);
    }

    /// The same for an end with error: an empty node falls away.
    fn end_with_error(&mut self) {
        if self.opens.last().is_some_and(|begin| begin + 1 == self.count()) {
            self.opens.pop();
            self.events.pop();
        } else {
            self.end();
        }
    }

    /// Drops all events from a position on; the last token is the last one that is left.
    fn truncate(&mut self, position: usize) {
        self.events.truncate(position);
        let end = self.events.iter().rev().find_map(|event| match event {
            Event::Token(end) => Some(*end),
            _ => None,
        });
        self.last_end = end.unwrap_or(0);
    }

    /// Drops the first event, if there is one.
    fn pop(&mut self) {
        if !self.events.is_empty() {
            self.token_popped |= matches!(self.events.remove(0), Event::Token(_));
        }
    }

    /// Whether a truncation to a position is taken, and is inside the domain.
    pub fn can_truncate(&self, position: usize) -> bool {
        position <= self.count() && balanced(&self.events[position..]) && !(self.token_popped && self.no_token_before(position))
    }

    /// Whether no token stands before a position.
    fn no_token_before(&self, position: usize) -> bool {
        !self.events[..position].iter().any(|event| matches!(event, Event::Token(_)))
    }
}

/// Whether events close what they open, and nothing else.
fn balanced(events: &[Event]) -> bool {
    let mut depth = 0;
    for event in events {
        match event {
            Event::Begin => depth += 1,
            Event::End if depth == 0 => return false,
            Event::End => depth -= 1,
            _ => {}
        }
    }
    depth == 0
}
