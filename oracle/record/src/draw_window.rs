//! Random sequences of calls on a window, inside document 01's domain of equality.
use crate::hex;
use crate::random::Random;
use crate::tokens::FIRST_OUTSIDE;
use reading::plain::{Mode, Tok, scan};

/// What sources are made of.
#[rustfmt::skip]
const PIECES: &[&str] = &[
    "a", " ", "{", "}", "[", "]", "4", "-", "AB", "??", "rule", "\n", "/*x*/", "\"s\"", "(", ")", "|", "~1F", "$a",
];

/// What is drawn for a turn.
enum Drawn {
    Call(String),
    Nothing,
    OutsideDomain,
}

/// What is known of the window when a call is drawn.
struct Known {
    source: String,
    fetched: Vec<Tok>,
    mode: Mode,
    index: usize,
    bookmarks: Vec<usize>,
}

/// The calls of a sequence, the opening first: 40 turns, or up to the end of the domain.
pub fn sequence(random: &mut Random) -> Vec<String> {
    let source: String = (0..random.below(12)).map(|_| random.one_of(PIECES)).collect();
    let mut calls = vec![format!("open {}", hex::text(source.as_bytes()))];
    let mut known = Known { source, fetched: Vec::new(), mode: Mode::Normal, index: 0, bookmarks: Vec::new() };
    for _ in 0..40 {
        match known.draw(random) {
            Drawn::Call(call) => calls.push(call),
            Drawn::Nothing => {}
            Drawn::OutsideDomain => break,
        }
    }
    calls
}

impl Known {
    /// Draws a call, and follows it.
    fn draw(&mut self, random: &mut Random) -> Drawn {
        match random.below(12) {
            0..=3 => self.next(),
            4 | 5 => {
                let n = if random.below(20) == 0 { 65_535 } else { random.below(5) };
                self.looking(n, format!("peek {n}"))
            }
            6 => self.looking(0, "has_more".to_string()),
            7 => self.bookmark(),
            8 if !self.bookmarks.is_empty() => self.restore(random.one_of(&self.bookmarks)),
            9 if !self.bookmarks.is_empty() => self.remove(random.below(self.bookmarks.len())),
            10 => self.switch(Mode::Pattern, "pattern"),
            11 => self.switch(Mode::Jump, "jump"),
            _ => Drawn::Nothing,
        }
    }

    /// A next, unless all bookmarks lie ahead of the token behind the one that it hands out.
    fn next(&mut self) -> Drawn {
        let inside = self.fetch(0);
        let more = self.index < self.fetched.len();
        let ahead = self.bookmarks.iter().min().is_some_and(|least| *least > self.index + 1);
        if !inside || more && ahead {
            return Drawn::OutsideDomain;
        }
        self.index += usize::from(more);
        Drawn::Call("next".to_string())
    }

    /// A call that looks at the token n behind the current one, unless that fetches what is outside of the domain.
    fn looking(&mut self, n: usize, call: String) -> Drawn {
        if self.fetch(n) { Drawn::Call(call) } else { Drawn::OutsideDomain }
    }

    /// A bookmark at the current token.
    fn bookmark(&mut self) -> Drawn {
        self.bookmarks.push(self.index);
        Drawn::Call("bookmark".to_string())
    }

    /// A rewind to a bookmark.
    fn restore(&mut self, index: usize) -> Drawn {
        self.index = index;
        Drawn::Call(format!("restore {index}"))
    }

    /// The removal of a bookmark that is named by its place in the list.
    fn remove(&mut self, place: usize) -> Drawn {
        Drawn::Call(format!("remove {}", self.bookmarks.swap_remove(place)))
    }

    /// A switch of the mode that what is not fetched yet is read in.
    fn switch(&mut self, mode: Mode, call: &str) -> Drawn {
        self.mode = mode;
        Drawn::Call(call.to_string())
    }

    /// Fetches up to the token n behind the current one, or to the end: whether all that is fetched is inside the domain.
    fn fetch(&mut self, n: usize) -> bool {
        while self.fetched.len() <= self.index + n {
            let place = self.fetched.last().map_or(0, |token| token.end as usize);
            let Some((token, mode)) = scan(self.source.as_bytes(), place, self.mode) else { break };
            self.fetched.push(token);
            self.mode = mode;
        }
        self.fetched.iter().all(|token| token.kind < FIRST_OUTSIDE)
    }
}
