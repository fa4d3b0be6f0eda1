// SPDX-License-Identifier: BSD-3-Clause
//! The events of a parser.
use crate::refusal::{done, found, sure};
use crate::{sys, Refusal};
use std::fmt;
use std::ops::Range;

/// What a parser says of a source: nodes that begin and end, tokens and errors.
///
/// Kinds and messages are numbers of the parser's own. Kind 0 is that of a node that ended with an error.
#[derive(Clone, Debug, PartialEq, Eq, Hash)]
pub enum Event {
    /// A node begins.
    Begin {
        /// The kind of the node; 0 where it ended with an error.
        kind: u16,
        /// The bytes of the node.
        span: Range<usize>,
    },
    /// The node that began last, of those that did not end yet, ends.
    End {
        /// The kind of the node, as its `Begin` has it.
        kind: u16,
        /// The bytes of the node, as its `Begin` has them.
        span: Range<usize>,
    },
    /// A token.
    Token {
        /// The kind of the token.
        kind: u16,
        /// The bytes of the token.
        span: Range<usize>,
    },
    /// An error.
    Error {
        /// The number of the message.
        message: u16,
        /// The bytes that are wrong.
        span: Range<usize>,
    },
}

impl Event {
    /// The bytes that the event is about.
    pub fn span(&self) -> Range<usize> {
        match self {
            Event::Begin { span, .. } | Event::End { span, .. } | Event::Token { span, .. } | Event::Error { span, .. } => span.clone(),
        }
    }

    /// The event that the library wrote.
    fn of(sys::RawEvent([tag, kind, start, end]): sys::RawEvent) -> Event {
        let span = start as usize..end as usize;
        let kind = kind as u16; // the stream was given 16 bits
        match tag {
            0 => Event::Begin { kind, span },
            1 => Event::End { kind, span },
            2 => Event::Token { kind, span },
            3 => Event::Error { message: kind, span },
            _ => panic!("the library gave an event of tag {tag}, which is none of its interface"),
        }
    }
}

/// A place in an event stream to which it can be truncated, as [`EventStream::bookmark`] gives it.
///
/// It is a plain number, a count of events, and is tested where it is used.
#[derive(Clone, Copy, Debug, PartialEq, Eq, PartialOrd, Ord, Hash)]
#[must_use = "a bookmark stays live until it is removed, and while one lives no event can be popped"]
pub struct EventBookmark(usize);

impl EventBookmark {
    /// The bookmark of a position. Whether it is right, the stream says that it is handed to.
    pub const fn new(position: usize) -> EventBookmark {
        EventBookmark(position)
    }

    /// How many events stand before it.
    pub const fn position(self) -> usize {
        self.0
    }
}

/// The events of a parser, in order: it pushes them at the end, can take back what it pushed since a bookmark, and pops them at the front.
///
/// A stream has room for so many events, and so many nodes can be open at once; where there is no room, a call is refused. Each open node
/// keeps a slot for its end, so that ending a node is never refused for want of room. It takes 16 bytes of memory for each event, and a
/// `usize` for each node that can be open.
///
/// The stream shares nothing: it is `Send` and `Sync`, and a clone goes on by itself.
///
/// ```
/// use warpthistle::{Event, EventStream, TokenStream};
///
/// const RULE: u16 = 100; // a kind of the parser's own
/// let mut tokens = TokenStream::new(b"rule")?;
/// let mut events = EventStream::new(16, 4);
///
/// events.begin(RULE)?;
/// let attempt = events.bookmark()?;
/// while let Some(token) = tokens.next_token() {
///     events.push_token(token.kind.number(), token.span())?;
/// }
/// events.truncate(&attempt)?; // the attempt failed: its events are taken back
/// events.remove_bookmark(attempt)?;
/// events.push_error(1, 0..4)?;
/// events.end_with_error()?;
///
/// let mut popped = Vec::new();
/// while let Some(event) = events.pop()? {
///     popped.push(event);
/// }
/// assert_eq!(popped[0], Event::Begin { kind: 0, span: 0..0 });
/// assert_eq!(popped[1], Event::Error { message: 1, span: 0..4 });
/// assert_eq!(popped[2], Event::End { kind: 0, span: 0..0 });
/// # Ok::<(), warpthistle::Refusal>(())
/// ```
#[derive(Clone)]
pub struct EventStream {
    events: sys::Events,
    room: Box<[u32]>,
    opens: Box<[usize]>,
}

impl EventStream {
    /// An empty stream with room for so many events, of which so many nodes can be open at once.
    ///
    /// A node is two events, and so a parser pushes no more than one event for each token and error, and two for each node.
    ///
    /// # Panics
    ///
    /// Where there is not so much memory, or the library that is linked is not of the version that this crate was made for.
    pub fn new(slots: usize, depth: usize) -> Self {
        crate::must_fit();
        let numbers = slots.checked_mul(4).expect("the room of an event stream has at most usize::MAX numbers");
        let mut stream = EventStream { events: sys::Events::new(), room: vec![0; numbers].into(), opens: vec![0; depth].into() };
        sure(done(stream.events.open(&stream.room, &stream.opens)));
        stream
    }

    /// Pushes a token.
    ///
    /// # Errors
    ///
    /// [`Refusal::NoSpan`]: the span starts behind its end, or ends past 65,535. Else [`Refusal::EventsFull`]: there is no slot for it.
    #[inline]
    pub fn push_token(&mut self, kind: u16, span: Range<usize>) -> Result<(), Refusal> {
        done(self.events.push_token(&mut self.room, &self.opens, kind, number(span.start), number(span.end)))
    }

    /// Pushes an error, by the number of its message.
    ///
    /// # Errors
    ///
    /// [`Refusal::NoSpan`]: the span starts behind its end, or ends past 65,535. Else [`Refusal::EventsFull`]: there is no slot for it.
    #[inline]
    pub fn push_error(&mut self, message: u16, span: Range<usize>) -> Result<(), Refusal> {
        done(self.events.push_error(&mut self.room, &self.opens, message, number(span.start), number(span.end)))
    }

    /// Begins a node, which starts where the last token ends.
    ///
    /// # Errors
    ///
    /// [`Refusal::TooDeep`]: as many nodes are open as can be. Else [`Refusal::EventsFull`]: there are no two slots for it.
    #[inline]
    pub fn begin(&mut self, kind: u16) -> Result<(), Refusal> {
        done(self.events.begin(&mut self.room, &mut self.opens, kind))
    }

    /// Ends the node that began last, of those that are open. Its end is that of the last token.
    ///
    /// # Errors
    ///
    /// [`Refusal::NothingOpen`]: no node is open.
    #[inline]
    pub fn end(&mut self) -> Result<(), Refusal> {
        done(self.events.end(&mut self.room, &self.opens))
    }

    /// Ends the node that began last as one with an error: its kind becomes 0. Where nothing was pushed since it began, it is taken out.
    ///
    /// # Errors
    ///
    /// [`Refusal::NothingOpen`]: no node is open.
    #[inline]
    pub fn end_with_error(&mut self) -> Result<(), Refusal> {
        done(self.events.end_with_error(&mut self.room, &self.opens))
    }

    /// Sets a bookmark at the end of the stream. It is live until it is removed.
    ///
    /// # Errors
    ///
    /// [`Refusal::TooManyBookmarks`]: 65,535 are live.
    #[inline]
    pub fn bookmark(&mut self) -> Result<EventBookmark, Refusal> {
        let mut position = 0;
        done(self.events.bookmark(&self.room, &self.opens, &mut position))?;
        Ok(EventBookmark(position))
    }

    /// Takes back the events that were pushed since a bookmark, which stays live.
    ///
    /// # Errors
    ///
    /// [`Refusal::NotLive`]: no bookmark is live. Else [`Refusal::PastTheEnd`]: fewer events stand in the stream than when it was set. Else
    /// [`Refusal::Unbalanced`]: a node began before it and ended since, or began since and is open.
    #[inline]
    pub fn truncate(&mut self, bookmark: &EventBookmark) -> Result<(), Refusal> {
        done(self.events.truncate(&self.room, &self.opens, bookmark.0))
    }

    /// Drops a bookmark.
    ///
    /// # Errors
    ///
    /// [`Refusal::NotLive`]: no bookmark is live. Else [`Refusal::PastTheEnd`]: fewer events stand in the stream than when it was set.
    #[inline]
    pub fn remove_bookmark(&mut self, bookmark: EventBookmark) -> Result<(), Refusal> {
        done(self.events.remove_bookmark(&self.room, &self.opens, bookmark.0))
    }

    /// Takes the first event out of the stream. `None` where the stream is empty.
    ///
    /// # Errors
    ///
    /// [`Refusal::NotSettled`]: a bookmark lives, or a node is open.
    #[inline]
    pub fn pop(&mut self) -> Result<Option<Event>, Refusal> {
        let mut event = sys::RawEvent([0; 4]);
        let found = found(self.events.pop(&self.room, &self.opens, &mut event))?;
        Ok(found.then(|| Event::of(event)))
    }
}

/// A number of bytes as the library takes it; one that is too large for it is past every source.
#[inline]
fn number(bytes: usize) -> u32 {
    u32::try_from(bytes).unwrap_or(u32::MAX)
}

/// Writes how much room there is.
impl fmt::Debug for EventStream {
    fn fmt(&self, f: &mut fmt::Formatter<'_>) -> fmt::Result {
        f.debug_struct("EventStream").field("slots", &(self.room.len() / 4)).field("depth", &self.opens.len()).finish_non_exhaustive()
    }
}
