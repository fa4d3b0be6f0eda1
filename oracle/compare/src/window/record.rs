//! The window's record as the port's caller keeps it between two calls, and what document 01 says of a call on any such numbers, over any
//! source and any room: refusal 24, clause by clause, else the call on what the numbers and the room say. Written from document 01's text;
//! only where each number stands is the port's.
use super::model::{Answer, Call, Source, Token};

/// The numbers of a record: the bookmarks, then live, bytes, slots (the low half first), place, mode, fetched, current.
pub type Numbers = [u32; 72];

/// Where each number stands, behind the bookmarks.
pub const LIVE: usize = 64;
pub const BYTES: usize = 65;
pub const SLOTS: usize = 66;
pub const PLACE: usize = 68;
pub const MODE: usize = 69;
pub const FETCHED: usize = 70;
pub const CURRENT: usize = 71;

/// The clauses of refusal 24, in document 01's words; the last is for a number that names no mode.
pub const CLAUSES: [&str; 12] = [
    "source over 65,535",
    "source not as long as at opening",
    "W not as at opening",
    "bookmarks unsorted",
    "too many bookmarks",
    "an unused place not 0",
    "current index above the number fetched",
    "a bookmark above the number fetched",
    "kept above W",
    "place below the number fetched",
    "place past the source",
    "no mode's number",
];

/// A record over a source of so many bytes and a room.
pub struct Record<'a, S> {
    pub source: S,
    pub bytes: usize,
    pub numbers: &'a mut Numbers,
    pub room: &'a mut [u32],
}

impl<S: Source> Record<'_, S> {
    /// What a call answers. A refused call changes nothing.
    pub fn answer(&mut self, call: Call) -> Answer {
        if self.broken().contains(&true) {
            return Answer::Refused(24);
        }
        self.taken(call).unwrap_or_else(Answer::Refused)
    }

    /// Which of the clauses the record breaks.
    pub fn broken(&self) -> [bool; CLAUSES.len()] {
        let [place, fetched, current] = [PLACE, FETCHED, CURRENT].map(|k| self.numbers[k]);
        let slots = self.numbers[SLOTS] as u64 | (self.numbers[SLOTS + 1] as u64) << 32;
        [
            self.bytes > 65_535,
            self.numbers[BYTES] as usize != self.bytes,
            slots != self.slots() as u64,
            !self.marks().is_sorted(),
            self.numbers[LIVE] > 64,
            self.numbers[self.marks().len()..LIVE].iter().any(|&mark| mark != 0),
            current > fetched,
            self.marks().iter().any(|&mark| mark > fetched),
            fetched.saturating_sub(self.low()) as u64 > slots,
            place < fetched,
            place as usize > self.bytes,
            self.numbers[MODE] > 2,
        ]
    }

    /// What a call on a sound record answers, or the number by which it is refused.
    fn taken(&mut self, call: Call) -> Result<Answer, u32> {
        match call {
            Call::Next => self.next(),
            Call::Peek(n) => Ok(self.peek(n)?.map_or(Answer::None, Answer::Token)),
            Call::HasMore => Ok(Answer::Truth(self.peek(0)?.is_some())),
            Call::Bookmark => self.bookmark(),
            Call::Restore(index) => self.restore(index),
            Call::Remove(index) => self.remove(index),
            Call::Pattern => Ok(self.switch(1)),
            Call::Jump => Ok(self.switch(2)),
            Call::Index => Ok(Answer::Index(self.numbers[CURRENT] as usize)),
        }
    }

    /// The bookmarks that live, as many as there can be.
    fn marks(&self) -> &[u32] {
        &self.numbers[..LIVE.min(self.numbers[LIVE] as usize)]
    }

    /// The smaller of the current index and the least live bookmark.
    fn low(&self) -> u32 {
        self.marks().iter().copied().fold(self.numbers[CURRENT], u32::min)
    }

    /// W, the number of slots lent.
    fn slots(&self) -> usize {
        self.room.len() / 3
    }

    /// The current token, which is taken.
    fn next(&mut self) -> Result<Answer, u32> {
        let Some(token) = self.peek(0)? else { return Ok(Answer::None) };
        self.numbers[CURRENT] += 1;
        Ok(Answer::Token(token))
    }

    /// The token n places on: it stands in its slot, once all up to it have been fetched.
    fn peek(&mut self, n: usize) -> Result<Option<Token>, u32> {
        let wanted = (self.numbers[CURRENT] as usize).saturating_add(n);
        self.fetch(wanted)?;
        let slot = |index: usize| 3 * (index % self.slots());
        Ok((wanted < self.numbers[FETCHED] as usize).then(|| [0, 1, 2].map(|k| self.room[slot(wanted) + k])))
    }

    /// Fetches up to the wanted index or the end; where more than W tokens would then be kept, refusal 2 and nothing fetched.
    fn fetch(&mut self, wanted: usize) -> Result<(), u32> {
        let had = self.numbers[FETCHED] as usize;
        let (mut place, mut mode, mut tokens) = (self.numbers[PLACE], self.numbers[MODE], Vec::new());
        while had + tokens.len() <= wanted {
            let Some((token, reached)) = self.source.scan(place, mode) else { break };
            (place, mode) = (token[2], reached);
            tokens.push(token);
        }
        if had + tokens.len() - self.low() as usize > self.slots() {
            return Err(2);
        }
        for (k, token) in tokens.iter().enumerate() {
            let slot = 3 * ((had + k) % self.slots());
            self.room[slot..slot + 3].copy_from_slice(token);
        }
        [self.numbers[PLACE], self.numbers[MODE], self.numbers[FETCHED]] = [place, mode, (had + tokens.len()) as u32];
        Ok(())
    }

    /// A new bookmark at the current index, among the others in order; 64 can live.
    fn bookmark(&mut self) -> Result<Answer, u32> {
        let current = self.numbers[CURRENT];
        let mut marks = self.marks().to_vec();
        if marks.len() == 64 {
            return Err(3);
        }
        marks.push(current);
        marks.sort();
        self.mark(&marks);
        Ok(Answer::Index(current as usize))
    }

    /// Back, or forth, to a live bookmark.
    fn restore(&mut self, index: u32) -> Result<Answer, u32> {
        self.live(index)?;
        self.numbers[CURRENT] = index;
        Ok(Answer::Done)
    }

    /// One bookmark at an index dies.
    fn remove(&mut self, index: u32) -> Result<Answer, u32> {
        let which = self.live(index)?;
        let mut marks = self.marks().to_vec();
        marks.remove(which);
        self.mark(&marks);
        Ok(Answer::Done)
    }

    /// Which of the live bookmarks is at an index.
    fn live(&self, index: u32) -> Result<usize, u32> {
        self.marks().iter().position(|&mark| mark == index).ok_or(4)
    }

    /// Other bookmarks; the unused places are 0.
    fn mark(&mut self, marks: &[u32]) {
        self.numbers[..LIVE].fill(0);
        self.numbers[..marks.len()].copy_from_slice(marks);
        self.numbers[LIVE] = marks.len() as u32;
    }

    /// Another mode for the tokens that are fetched from now on.
    fn switch(&mut self, mode: u32) -> Answer {
        self.numbers[MODE] = mode;
        Answer::Done
    }
}
