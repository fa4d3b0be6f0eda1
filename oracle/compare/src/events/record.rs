//! The event stream's record as the port's caller keeps it between two calls, and what document 01 says of a call on any such numbers, over
//! any rooms: refusal 24, clause by clause, else the call on what the numbers and the rooms say. Written from document 01's text; only
//! where each number stands is the port's.
use super::model::{Answer, BEGIN, Call, END, ERROR, Event, TOKEN};

/// The numbers of a record: slots, places, front, count, opened (two numbers each, the low half first), bookmarks, start and end of the
/// last token, start and end of the last one popped, whether anything was popped.
pub type Numbers = [u32; 16];

/// Where each number stands.
pub const SLOTS: usize = 0;
pub const PLACES: usize = 2;
pub const FRONT: usize = 4;
pub const COUNT: usize = 6;
pub const OPENED: usize = 8;
pub const BOOKMARKS: usize = 10;
pub const LAST: usize = 11;
pub const GONE: usize = 13;
pub const POPPED: usize = 15;

/// The clauses of refusal 24, in document 01's words; the last is for a number that is no truth value.
pub const CLAUSES: [&str; 8] = [
    "E not as at opening",
    "D not as at opening",
    "front not below E",
    "events plus open nodes above E",
    "open above D",
    "last open place at or past the number of events",
    "no Begin at the last open place",
    "neither popped nor not",
];

/// A record over a ring and open places.
pub struct Record<'a> {
    pub numbers: &'a mut Numbers,
    pub room: &'a mut [u32],
    pub places: &'a mut [usize],
}

impl Record<'_> {
    /// What a call answers. A refused call changes nothing.
    pub fn answer(&mut self, call: Call) -> Answer {
        if self.broken().contains(&true) {
            return Answer::Refused(24);
        }
        self.taken(call).unwrap_or_else(Answer::Refused)
    }

    /// Which of the clauses the record breaks.
    pub fn broken(&self) -> [bool; CLAUSES.len()] {
        let [slots, places, front, count, opened] = [SLOTS, PLACES, FRONT, COUNT, OPENED].map(|k| self.wide(k));
        let last = opened.checked_sub(1).and_then(|place| self.places.get(place).copied());
        let tag = |position: usize| self.room.get(4 * ((front as u128 + position as u128) % slots.max(1) as u128) as usize).copied();
        [
            slots != self.room.len() / 4,
            places != self.places.len(),
            slots != 0 && front >= slots,
            count as u128 + opened as u128 > slots as u128,
            opened > places,
            last.is_some_and(|position| position >= count),
            last.is_some_and(|position| position < count && tag(position) != Some(BEGIN)),
            self.numbers[POPPED] > 1,
        ]
    }

    /// What a call on a sound record answers, or the number by which it is refused.
    fn taken(&mut self, call: Call) -> Result<Answer, u32> {
        match call {
            Call::Token(kind, [start, end]) => {
                self.push([TOKEN, kind, start, end])?;
                [self.numbers[LAST], self.numbers[LAST + 1]] = [start, end];
            }
            Call::Error(message, [start, end]) => self.push([ERROR, message, start, end])?,
            Call::Begin(kind) => self.begin(kind)?,
            Call::End => self.end(None)?,
            Call::EndWithError => self.end_with_error()?,
            Call::Bookmark => return self.bookmark(),
            Call::Truncate(position) => self.truncate(position)?,
            Call::Remove(position) => {
                self.reachable(position)?;
                self.numbers[BOOKMARKS] -= 1;
            }
            Call::Pop => return self.pop(),
        }
        Ok(Answer::Done)
    }

    /// A number of 64 bits.
    fn wide(&self, k: usize) -> usize {
        (self.numbers[k] as u64 | (self.numbers[k + 1] as u64) << 32) as usize
    }

    /// Sets a number of 64 bits.
    fn set(&mut self, k: usize, value: usize) {
        [self.numbers[k], self.numbers[k + 1]] = [value as u32, (value as u64 >> 32) as u32];
    }

    /// Where the slot of a position begins in the ring.
    fn slot(&self, position: usize) -> usize {
        4 * ((self.wide(FRONT) + position) % self.wide(SLOTS))
    }

    /// The event at a position.
    fn event(&self, position: usize) -> Event {
        let slot = self.slot(position);
        [0, 1, 2, 3].map(|k| self.room[slot + k])
    }

    /// Puts an event at a position.
    fn put(&mut self, position: usize, event: Event) {
        let slot = self.slot(position);
        self.room[slot..slot + 4].copy_from_slice(&event);
    }

    /// How many slots are neither an event's nor reserved for the End of an open node.
    fn unreserved(&self) -> usize {
        self.wide(SLOTS) - self.wide(COUNT) - self.wide(OPENED)
    }

    /// A new event at the end, which is a token or an error.
    fn push(&mut self, event: Event) -> Result<(), u32> {
        let [_, _, start, end] = event;
        if start > end || end > 65_535 {
            return Err(7);
        }
        if self.unreserved() < 1 {
            return Err(5);
        }
        self.append(event);
        Ok(())
    }

    /// One event more.
    fn append(&mut self, event: Event) {
        let count = self.wide(COUNT);
        self.put(count, event);
        self.set(COUNT, count + 1);
    }

    /// A Begin, from the last token's end to the same; its position is noted as open.
    fn begin(&mut self, kind: u32) -> Result<(), u32> {
        let (opened, end) = (self.wide(OPENED), self.numbers[LAST + 1]);
        if opened == self.places.len() {
            return Err(11);
        }
        if self.unreserved() < 2 {
            return Err(5);
        }
        self.places[opened] = self.wide(COUNT);
        self.append([BEGIN, kind, end, end]);
        self.set(OPENED, opened + 1);
        Ok(())
    }

    /// The position of the Begin that was opened last.
    fn inner(&self) -> Result<usize, u32> {
        let place = self.wide(OPENED).checked_sub(1).ok_or(6_u32)?;
        Ok(self.places[place])
    }

    /// The last open Begin's end is the last token's end; an End of equal kind and span follows. The kind is the Begin's, or another one.
    fn end(&mut self, kind: Option<u32>) -> Result<(), u32> {
        let position = self.inner()?;
        let ([_, begun, start, _], end) = (self.event(position), self.numbers[LAST + 1]);
        let kind = kind.unwrap_or(begun);
        self.put(position, [BEGIN, kind, start, end]);
        self.append([END, kind, start, end]);
        self.set(OPENED, self.wide(OPENED) - 1);
        Ok(())
    }

    /// An end with the kind of both set to 0; an empty node is removed instead.
    fn end_with_error(&mut self) -> Result<(), u32> {
        let position = self.inner()?;
        if position + 1 == self.wide(COUNT) {
            self.set(COUNT, position);
            self.set(OPENED, self.wide(OPENED) - 1);
            return Ok(());
        }
        self.end(Some(0))
    }

    /// One bookmark more; 65,535 can live.
    fn bookmark(&mut self) -> Result<Answer, u32> {
        if self.numbers[BOOKMARKS] >= 65_535 {
            return Err(3);
        }
        self.numbers[BOOKMARKS] += 1;
        Ok(Answer::Position(self.wide(COUNT)))
    }

    /// A bookmark must live, and the position not be past the end.
    fn reachable(&self, position: usize) -> Result<(), u32> {
        match self.numbers[BOOKMARKS] {
            0 => Err(4),
            _ if position > self.wide(COUNT) => Err(10),
            _ => Ok(()),
        }
    }

    /// The events up to a position remain, where those behind it balance. The last token is the last Token event of them, else the last one
    /// popped.
    fn truncate(&mut self, position: usize) -> Result<(), u32> {
        self.reachable(position)?;
        let mut depth = 0;
        for tag in (position..self.wide(COUNT)).map(|p| self.event(p)[0]) {
            depth += (tag == BEGIN) as i64 - (tag == END) as i64;
            if depth < 0 {
                return Err(8);
            }
        }
        if depth > 0 {
            return Err(8);
        }
        let remaining = (0..position).rev().map(|p| self.event(p)).find(|event| event[0] == TOKEN);
        let [start, end] = remaining.map_or([self.numbers[GONE], self.numbers[GONE + 1]], |[_, _, start, end]| [start, end]);
        [self.numbers[LAST], self.numbers[LAST + 1]] = [start, end];
        self.set(COUNT, position);
        Ok(())
    }

    /// The first event, which is taken; the front moves on.
    fn pop(&mut self) -> Result<Answer, u32> {
        if self.numbers[BOOKMARKS] > 0 || self.wide(OPENED) > 0 {
            return Err(9);
        }
        let Some(left) = self.wide(COUNT).checked_sub(1) else { return Ok(Answer::None) };
        let event = self.event(0);
        self.set(FRONT, (self.wide(FRONT) + 1) % self.wide(SLOTS));
        self.set(COUNT, left);
        self.numbers[POPPED] = 1;
        if event[0] == TOKEN {
            [self.numbers[GONE], self.numbers[GONE + 1]] = [event[2], event[3]];
        }
        Ok(Answer::Event(event))
    }
}
