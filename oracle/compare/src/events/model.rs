//! Document 01's event stream, written from its text alone: a list of events, the refusals of E slots and D open places, and what stands
//! in them. A script runs from opening on, over the same rooms, so refusal 24 (forged state) cannot arise in it.
use std::collections::VecDeque;

/// Tag, kind or message, start and end.
pub type Event = [u32; 4];

/// Start and end.
pub type Span = [u32; 2];

/// The tags of events.
pub const BEGIN: u32 = 0;
pub const END: u32 = 1;
pub const TOKEN: u32 = 2;
pub const ERROR: u32 = 3;

/// The calls of the event stream.
#[derive(Clone, Copy, PartialEq, Eq, Debug)]
pub enum Call {
    Token(u32, Span),
    Error(u32, Span),
    Begin(u32),
    End,
    EndWithError,
    Bookmark,
    Truncate(usize),
    Remove(usize),
    Pop,
}

/// What a call can answer.
#[derive(Clone, Copy, PartialEq, Eq, Debug)]
pub enum Answer {
    None,
    Event(Event),
    Position(usize),
    Done,
    Refused(u32),
}

/// The list of events, beside the numbers of document 01's record that answers depend on, and the lent rooms.
pub struct Stream {
    pub events: VecDeque<Event>,
    /// The positions of the Begins that are open.
    pub open: Vec<usize>,
    /// How many bookmarks live.
    pub bookmarks: usize,
    /// The last token.
    pub last: Span,
    /// The last token popped.
    pub popped: Option<Span>,
    /// The slot of the first event.
    front: usize,
    /// The lent ring, four numbers a slot.
    pub room: Vec<u32>,
    /// The lent open places.
    pub places: Vec<usize>,
}

impl Stream {
    /// An empty stream.
    pub fn open(room: Vec<u32>, places: Vec<usize>) -> Stream {
        Stream { events: VecDeque::new(), open: Vec::new(), bookmarks: 0, last: [0, 0], popped: None, front: 0, room, places }
    }

    /// What a call answers. A refused call changes nothing.
    pub fn answer(&mut self, call: Call) -> Answer {
        match self.refusal(call) {
            Some(number) => Answer::Refused(number),
            None => self.taken(call),
        }
    }

    /// The refusal of a call: the first ground that holds, in document 01's order.
    pub fn refusal(&self, call: Call) -> Option<u32> {
        let grounds = match call {
            Call::Token(_, [start, end]) | Call::Error(_, [start, end]) => {
                [(start > end || end > 65_535, 7), (self.unreserved() < 1, 5), NEVER]
            }
            Call::Begin(_) => [(self.open.len() == self.places.len(), 11), (self.unreserved() < 2, 5), NEVER],
            Call::End | Call::EndWithError => [(self.open.is_empty(), 6), NEVER, NEVER],
            Call::Bookmark => [(self.bookmarks == 65_535, 3), NEVER, NEVER],
            Call::Truncate(position) => [(self.bookmarks == 0, 4), (self.past(position), 10), (!self.balance_from(position), 8)],
            Call::Remove(position) => [(self.bookmarks == 0, 4), (self.past(position), 10), NEVER],
            Call::Pop => [(self.bookmarks > 0 || !self.open.is_empty(), 9), NEVER, NEVER],
        };
        grounds.iter().find(|(holds, _)| *holds).map(|(_, number)| *number)
    }

    /// What a call that is not refused answers.
    fn taken(&mut self, call: Call) -> Answer {
        match call {
            Call::Token(kind, span) => self.token(kind, span),
            Call::Error(message, [start, end]) => self.push([ERROR, message, start, end]),
            Call::Begin(kind) => self.begin(kind),
            Call::End => self.end(),
            Call::EndWithError => self.end_with_error(),
            Call::Bookmark => {
                self.bookmarks += 1;
                return Answer::Position(self.events.len());
            }
            Call::Truncate(position) => self.truncate(position),
            Call::Remove(_) => self.bookmarks -= 1,
            Call::Pop => return self.pop(),
        }
        Answer::Done
    }

    /// E, the number of slots lent.
    fn slots(&self) -> usize {
        self.room.len() / 4
    }

    /// How many slots are neither an event's nor reserved for the End of an open node.
    fn unreserved(&self) -> usize {
        self.slots() - self.events.len() - self.open.len()
    }

    /// Whether a position is past the end.
    fn past(&self, position: usize) -> bool {
        position > self.events.len()
    }

    /// Whether the events from a position on balance among themselves, Begin against End by tag alone.
    fn balance_from(&self, position: usize) -> bool {
        let mut depth = 0;
        for event in self.events.iter().skip(position) {
            match event[0] {
                BEGIN => depth += 1,
                END if depth == 0 => return false,
                END => depth -= 1,
                _ => {}
            }
        }
        depth == 0
    }

    /// Puts an event at a position, in the list and in its slot of the ring.
    fn put(&mut self, position: usize, event: Event) {
        self.events[position] = event;
        let slot = (self.front + position) % self.slots();
        self.room[4 * slot..4 * slot + 4].copy_from_slice(&event);
    }

    /// A new event at the end.
    fn push(&mut self, event: Event) {
        self.events.push_back(event);
        self.put(self.events.len() - 1, event);
    }

    /// A Token event, which is the last token now.
    fn token(&mut self, kind: u32, span: Span) {
        self.last = span;
        self.push([TOKEN, kind, span[0], span[1]]);
    }

    /// A Begin, from the last token's end to the same; its position is noted as open.
    fn begin(&mut self, kind: u32) {
        self.places[self.open.len()] = self.events.len();
        self.open.push(self.events.len());
        self.push([BEGIN, kind, self.last[1], self.last[1]]);
    }

    /// The last open Begin's end is the last token's end; an End of equal kind and span follows.
    fn end(&mut self) {
        let Some(position) = self.open.pop() else { return };
        let [_, kind, start, _] = self.events[position];
        self.put(position, [BEGIN, kind, start, self.last[1]]);
        self.push([END, kind, start, self.last[1]]);
    }

    /// An end with the kind of both set to 0; an empty node is removed instead.
    fn end_with_error(&mut self) {
        let Some(&position) = self.open.last() else { return };
        if position + 1 == self.events.len() {
            self.open.pop();
            self.events.pop_back();
        } else {
            self.events[position][1] = 0;
            self.end();
        }
    }

    /// The events up to a position remain. The last token is the last Token event of them, else the last one popped, else 0 to 0.
    fn truncate(&mut self, position: usize) {
        self.events.truncate(position);
        let remaining = self.events.iter().rev().find(|event| event[0] == TOKEN);
        self.last = remaining.map(|&[_, _, start, end]| [start, end]).or(self.popped).unwrap_or([0, 0]);
    }

    /// The first event, which is taken; the front moves on.
    fn pop(&mut self) -> Answer {
        let Some(event) = self.events.pop_front() else { return Answer::None };
        self.front = (self.front + 1) % self.slots();
        if event[0] == TOKEN {
            self.popped = Some([event[2], event[3]]);
        }
        Answer::Event(event)
    }
}

/// A ground that never holds.
const NEVER: (bool, u32) = (false, 0);
