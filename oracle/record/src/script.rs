//! Scripts: one call a line, one answer a line. Empty lines and those that start with `--` are copied.
//!
//! Window: `open HEX` or `text REST-OF-LINE`; `next`, `peek N`, `has_more`, `index`, `bookmark`, `restore I`, `remove I`, `pattern`,
//! `jump`. A token is answered as kind, start and end. Events: `open`; `token K S E`, `error M S E`, `begin K`, `end`, `end_error`,
//! `bookmark`, `truncate P`, `remove P`, `pop`, and `drain`, which pops all. An event is answered as tag, kind or message, start and end.
use std::any::Any;
use std::panic::{AssertUnwindSafe, catch_unwind, set_hook};

/// The answer of what is done and has nothing to say.
pub const OK: &str = "ok";

/// The answer where a call names a bookmark that does not live, which in the Rust cannot be written.
pub const NOT_LIVE: &str = "refused 4";

/// A stream of the Rust that is called in words.
pub trait Stream: Sized {
    /// The stream that a line opens, if it is such a line.
    fn opened(line: &str) -> Option<Self>;

    /// Makes a call, and gives its answer.
    fn answer(&mut self, call: &str) -> String;
}

/// Answers each line of standard input.
pub fn run<S: Stream>() {
    set_hook(Box::new(|_| {}));
    let mut stream: Option<S> = None;
    for line in std::io::stdin().lines() {
        println!("{}", answer(&mut stream, &line.expect("a line")));
    }
}

/// Prints each call of a sequence with its answer.
pub fn record<S: Stream>(calls: &[String]) {
    let mut stream: Option<S> = None;
    for call in calls {
        println!("{call} => {}", answer(&mut stream, call));
    }
}

/// The answer to a line. A panic is answered too; the stream is dead then, until the next opening.
fn answer<S: Stream>(stream: &mut Option<S>, line: &str) -> String {
    catch_unwind(AssertUnwindSafe(|| said(stream, line))).unwrap_or_else(|panic| {
        *stream = None;
        format!("panic: {}", message(&*panic))
    })
}

/// What is said to a line: it is copied, opens a stream, or calls the open one.
fn said<S: Stream>(stream: &mut Option<S>, line: &str) -> String {
    if line.trim().is_empty() || line.trim_start().starts_with("--") {
        return line.to_string();
    }
    if let Some(opened) = S::opened(line) {
        *stream = Some(opened);
        return "open".to_string();
    }
    stream.as_mut().map_or("dead".to_string(), |open| open.answer(line))
}

/// What a panic said, in one line.
fn message(panic: &(dyn Any + Send)) -> String {
    let fixed = panic.downcast_ref::<&str>().map(|text| text.to_string());
    let text = fixed.or_else(|| panic.downcast_ref::<String>().cloned());
    text.unwrap_or_default().replace('\n', " ")
}
