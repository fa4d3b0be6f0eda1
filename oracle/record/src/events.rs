//! The Rust's event stream, called in words.
use crate::number;
use crate::script::{NOT_LIVE, OK, Stream};
use rust::events::Events;

impl Stream for Events {
    /// `open` opens an empty stream.
    fn opened(line: &str) -> Option<Self> {
        (line.trim() == "open").then(Events::open)
    }

    /// Makes one of the calls that `script` names.
    fn answer(&mut self, call: &str) -> String {
        match call.split_whitespace().collect::<Vec<_>>().as_slice() {
            ["token", kind, start, end] => self.token(number(kind), number(start), number(end)),
            ["error", message, start, end] => self.error(number(message), number(start), number(end)),
            ["begin", kind] => self.begin(number(kind)),
            ["end"] => self.end(),
            ["end_error"] => self.end_with_error(),
            ["bookmark"] => return format!("bookmark {}", self.bookmark()),
            ["truncate" | "remove", position] if !self.is_live(number(position)) => return NOT_LIVE.to_string(),
            ["truncate", position] => self.truncate(number(position)),
            ["remove", position] => self.remove(number(position)),
            ["pop"] => return self.pop().map_or("none".to_string(), words),
            ["drain"] => return std::iter::from_fn(|| self.pop()).map(words).collect::<Vec<_>>().join(" ; "),
            _ => panic!("`{call}` is no call of the event stream"),
        }
        OK.to_string()
    }
}

/// An event in words: tag, kind or message, start, end.
fn words([tag, kind, start, end]: [u32; 4]) -> String {
    format!("{tag} {kind} {start} {end}")
}
