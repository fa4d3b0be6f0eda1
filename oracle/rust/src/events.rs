//! The Rust's syntax stream.
use crate::Span;
use crate::cst::Event;
use crate::cst::syntax_stream::{Bookmark, SyntaxStream};
use crate::kinds::{LAST_KIND, kind_of, number_of};

/// A syntax stream. Bookmarks, which in the Rust are values that the caller keeps, are named by their position; as the stream does not
/// show positions, its events and open nodes are counted beside it.
pub struct Events {
    stream: SyntaxStream,
    length: usize,
    opens: Vec<usize>,
    bookmarks: Vec<(usize, Bookmark)>,
}

/// The greatest number that a kind may have here.
pub fn last_kind() -> u32 {
    LAST_KIND
}

impl Events {
    /// Opens an empty stream.
    pub fn open() -> Self {
        Events { stream: SyntaxStream::new(), length: 0, opens: Vec::new(), bookmarks: Vec::new() }
    }

    /// Pushes a token.
    pub fn token(&mut self, kind: u32, start: u32, end: u32) {
        self.stream.push_token(kind_of(kind), Span(start..end));
        self.length += 1;
    }

    /// Pushes an error; its message is the number's text.
    pub fn error(&mut self, message: u32, start: u32, end: u32) {
        self.stream.push_error(message.to_string(), Span(start..end));
        self.length += 1;
    }

    /// Begins a node.
    pub fn begin(&mut self, kind: u32) {
        self.stream.begin(kind_of(kind));
        self.opens.push(self.length);
        self.length += 1;
    }

    /// Ends the node that was begun last.
    pub fn end(&mut self) {
        self.stream.end();
        self.opens.pop();
        self.length += 1;
    }

    /// Ends a node with an error, which removes it where it is empty.
    pub fn end_with_error(&mut self) {
        self.stream.end_with_error();
        let empty = self.opens.pop() == self.length.checked_sub(1);
        self.length = if empty { self.length - 1 } else { self.length + 1 };
    }

    /// Makes a bookmark and answers its position.
    pub fn bookmark(&mut self) -> usize {
        self.bookmarks.push((self.length, self.stream.bookmark()));
        self.length
    }

    /// Truncates to a bookmark at the position, which must be live.
    pub fn truncate(&mut self, position: usize) {
        self.stream.truncate(&self.bookmarks[self.live(position)].1);
        self.length = position;
    }

    /// Removes one bookmark at the position, which must be live.
    pub fn remove(&mut self, position: usize) {
        let place = self.live(position);
        self.stream.remove_bookmark(self.bookmarks.swap_remove(place).1);
    }

    /// Takes the front event: tag, kind or message, start, end.
    pub fn pop(&mut self) -> Option<[u32; 4]> {
        let event = self.stream.pop()?;
        self.length -= 1;
        Some(match event {
            Event::Begin { kind, span: Span(span) } => [0, number_of(kind), span.start, span.end],
            Event::End { kind, span: Span(span) } => [1, number_of(kind), span.start, span.end],
            Event::Token { kind, span: Span(span) } => [2, number_of(kind), span.start, span.end],
            Event::Error { message, span: Span(span) } => [3, message.parse().expect("a number"), span.start, span.end],
        })
    }

    /// Whether a bookmark at the position lives.
    pub fn is_live(&self, position: usize) -> bool {
        self.bookmarks.iter().any(|(p, _)| *p == position)
    }

    /// Where a live bookmark of the position is kept.
    fn live(&self, position: usize) -> usize {
        self.bookmarks.iter().position(|(p, _)| *p == position).expect("a live bookmark")
    }
}
