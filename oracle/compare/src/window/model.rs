//! Document 01's window, written from its text alone: the record that drops no token, the refusals of W lent slots, and what stands in
//! them. A script runs from opening on, over one source and one room, so refusal 24 (forged state) cannot arise in it.

/// Kind, start and end.
pub type Token = [u32; 3];

/// Where tokens come from: the token that starts at a place in a mode (0 normal, 1 pattern, 2 jump), and the mode reached; none at the end.
pub trait Source {
    fn scan(&self, place: u32, mode: u32) -> Option<(Token, u32)>;
}

/// The calls of the window.
#[derive(Clone, Copy, PartialEq, Eq, Debug)]
pub enum Call {
    Next,
    Peek(u32),
    HasMore,
    Bookmark,
    Restore(u32),
    Remove(u32),
    Pattern,
    Jump,
    Index,
}

/// What a call can answer.
#[derive(Clone, Copy, PartialEq, Eq, Debug)]
pub enum Answer {
    None,
    Token(Token),
    Truth(bool),
    Index(usize),
    Done,
    Refused(u32),
}

/// The record, and the lent room.
pub struct Window<S> {
    source: S,
    mode: u32,
    /// Every token that was ever fetched.
    pub fetched: Vec<Token>,
    /// The current index.
    pub current: usize,
    /// The live bookmarks, in no order.
    pub bookmarks: Vec<usize>,
    /// The lent room, three numbers a slot.
    pub room: Vec<u32>,
}

impl<S: Source> Window<S> {
    /// A window that has fetched nothing, in normal mode.
    pub fn open(source: S, room: Vec<u32>) -> Self {
        Window { source, mode: 0, fetched: Vec::new(), current: 0, bookmarks: Vec::new(), room }
    }

    /// What a call answers. A refused call changes nothing.
    pub fn answer(&mut self, call: Call) -> Answer {
        self.taken(call).unwrap_or_else(Answer::Refused)
    }

    /// What a call answers, or the number by which it is refused.
    fn taken(&mut self, call: Call) -> Result<Answer, u32> {
        match call {
            Call::Next => self.next(),
            Call::Peek(n) => Ok(self.peek(n)?.map_or(Answer::None, Answer::Token)),
            Call::HasMore => Ok(Answer::Truth(self.peek(0)?.is_some())),
            Call::Bookmark => self.bookmark(),
            Call::Restore(i) => self.restore(i as usize),
            Call::Remove(i) => self.remove(i as usize),
            Call::Pattern => Ok(self.switch(1)),
            Call::Jump => Ok(self.switch(2)),
            Call::Index => Ok(Answer::Index(self.current)),
        }
    }

    /// The current token, which is taken.
    fn next(&mut self) -> Result<Answer, u32> {
        let Some(token) = self.peek(0)? else { return Ok(Answer::None) };
        self.current += 1;
        Ok(Answer::Token(token))
    }

    /// The token n places on.
    fn peek(&mut self, n: u32) -> Result<Option<Token>, u32> {
        let wanted = self.current + n as usize;
        self.fetch(wanted)?;
        Ok(self.fetched.get(wanted).copied())
    }

    /// Fetches up to the wanted index or the end; where more than W tokens would then be kept, refusal 2 and nothing fetched.
    fn fetch(&mut self, wanted: usize) -> Result<(), u32> {
        let (mode, had) = (self.mode, self.fetched.len());
        while self.fetched.len() <= wanted {
            let Some((token, reached)) = self.source.scan(self.place(), self.mode) else { break };
            self.fetched.push(token);
            self.mode = reached;
        }
        if self.fetched.len() - self.low() > self.slots() {
            self.fetched.truncate(had);
            self.mode = mode;
            return Err(2);
        }
        for index in had..self.fetched.len() {
            let slot = index % self.slots();
            self.room[3 * slot..3 * slot + 3].copy_from_slice(&self.fetched[index]);
        }
        Ok(())
    }

    /// Scanning goes on at the end of the last token fetched, whatever has been rewound.
    fn place(&self) -> u32 {
        self.fetched.last().map_or(0, |token| token[2])
    }

    /// The smaller of the current index and the least live bookmark: from there on tokens are kept.
    fn low(&self) -> usize {
        self.bookmarks.iter().copied().fold(self.current, usize::min)
    }

    /// W, the number of slots lent.
    fn slots(&self) -> usize {
        self.room.len() / 3
    }

    /// A new bookmark at the current index; 64 can live.
    fn bookmark(&mut self) -> Result<Answer, u32> {
        if self.bookmarks.len() == 64 {
            return Err(3);
        }
        self.bookmarks.push(self.current);
        Ok(Answer::Index(self.current))
    }

    /// Back, or forth, to a live bookmark.
    fn restore(&mut self, index: usize) -> Result<Answer, u32> {
        self.live(index)?;
        self.current = index;
        Ok(Answer::Done)
    }

    /// One bookmark at an index dies.
    fn remove(&mut self, index: usize) -> Result<Answer, u32> {
        let which = self.live(index)?;
        self.bookmarks.swap_remove(which);
        Ok(Answer::Done)
    }

    /// Which of the live bookmarks is at an index.
    fn live(&self, index: usize) -> Result<usize, u32> {
        self.bookmarks.iter().position(|&bookmark| bookmark == index).ok_or(4)
    }

    /// Another mode for the tokens that are fetched from now on.
    fn switch(&mut self, mode: u32) -> Answer {
        self.mode = mode;
        Answer::Done
    }
}
