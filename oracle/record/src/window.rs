//! The Rust's window, called in words.
use crate::script::{NOT_LIVE, OK, Stream};
use crate::{hex, number, tokens};
use rust::Tok;
use rust::window::Window;

impl Stream for Window<'static> {
    /// `open` has the source in hexadecimal, `text` as it stands. Sources stay as long as the program runs.
    fn opened(line: &str) -> Option<Self> {
        let line = line.trim_start();
        let (word, rest) = line.split_once(' ').unwrap_or((line, ""));
        let source = match word {
            "open" => hex::bytes(rest.trim()),
            "text" => rest.trim_start().into(),
            _ => return None,
        };
        Some(Window::open(source.leak()))
    }

    /// Makes one of the calls that `script` names.
    fn answer(&mut self, call: &str) -> String {
        match call.split_whitespace().collect::<Vec<_>>().as_slice() {
            ["next"] => return words(self.next()),
            ["peek", n] => return words(self.peek(number(n))),
            ["has_more"] => return self.has_more().to_string(),
            ["index"] => return self.index().to_string(),
            ["bookmark"] => return format!("bookmark {}", self.bookmark()),
            ["restore" | "remove", index] if !self.is_live(number(index)) => return NOT_LIVE.to_string(),
            ["restore", index] => self.restore(number(index)),
            ["remove", index] => self.remove(number(index)),
            ["pattern"] => self.pattern(),
            ["jump"] => self.jump(),
            _ => panic!("`{call}` is no call of the window"),
        }
        OK.to_string()
    }
}

/// A token or none, in words.
fn words(token: Option<Tok>) -> String {
    token.map_or("none".to_string(), tokens::words)
}
