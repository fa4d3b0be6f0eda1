//! The tokens of a source, by each of those that are compared, with switches of the mode between.
use reading::patterns::Patterns;
use reading::plain::{self, Mode, Tok};

/// A switch is made when so many tokens were read, and enters a hex mode.
pub type Switch = (usize, Mode);

/// A source that is read token by token.
pub trait Reader {
    /// Enters a mode.
    fn enter(&mut self, mode: Mode);

    /// The next token, none at the end.
    fn next(&mut self) -> Option<Tok>;
}

impl Reader for rust::Tokens<'_> {
    fn enter(&mut self, mode: Mode) {
        rust::Tokens::enter(self, mode);
    }

    fn next(&mut self) -> Option<Tok> {
        Iterator::next(self)
    }
}

/// Reads document 01 as plain.rs does.
pub struct Plain<'a> {
    src: &'a [u8],
    place: usize,
    mode: Mode,
}

impl<'a> Plain<'a> {
    /// Opens a source, in normal mode.
    pub fn open(src: &'a [u8]) -> Self {
        Plain { src, place: 0, mode: Mode::Normal }
    }
}

impl Reader for Plain<'_> {
    fn enter(&mut self, mode: Mode) {
        self.mode = mode;
    }

    fn next(&mut self) -> Option<Tok> {
        let (token, mode) = plain::scan(self.src, self.place, self.mode)?;
        (self.place, self.mode) = (token.end as usize, mode);
        Some(token)
    }
}

/// How the Rust departs from document 01 where normal mode finds nothing.
#[derive(Clone, Copy, PartialEq, Eq)]
pub enum Departure {
    /// UNKNOWN ends at the stuck point, behind document 01's end.
    LongUnknown,
    /// Reading goes on at the stuck point, behind the one byte of INVALID_UTF8.
    BytesLeftOut,
}

/// Reads the patterns, by another engine than the Rust's, with the Rust's own rule where normal mode finds nothing: the stuck point is the
/// furthest byte that some pattern can still reach.
pub struct StuckPoint<'a> {
    src: &'a [u8],
    place: usize,
    mode: Mode,
    patterns: &'a Patterns,
    /// How it departed from document 01 first.
    pub departure: Option<Departure>,
}

impl<'a> StuckPoint<'a> {
    /// Opens a source, in normal mode.
    pub fn open(src: &'a [u8], patterns: &'a Patterns) -> Self {
        StuckPoint { src, place: 0, mode: Mode::Normal, patterns, departure: None }
    }

    /// The token of this kind and length; reading goes on so many bytes behind its start.
    fn token(&mut self, kind: u32, length: usize, onward: usize) -> Option<Tok> {
        let start = self.place;
        self.place += onward;
        Some(Tok { kind, start: start as u32, end: (start + length) as u32 })
    }

    /// What the Rust answers where normal mode finds nothing.
    fn unmatched(&mut self, rest: &[u8]) -> Option<Tok> {
        let stuck = self.patterns.stuck_point(rest);
        let well_formed = rest.utf8_chunks().next()?.valid();
        let (kind, length, departure) = match well_formed.split(char::is_whitespace).next()?.len() {
            _ if well_formed.is_empty() => (81, 1, Departure::BytesLeftOut),
            word => (82, word.max(1), Departure::LongUnknown),
        };
        if stuck > length {
            self.departure.get_or_insert(departure);
        }
        let onward = stuck.max(length);
        self.token(kind, if kind == 82 { onward } else { length }, onward)
    }
}

impl Reader for StuckPoint<'_> {
    fn enter(&mut self, mode: Mode) {
        self.mode = mode;
    }

    fn next(&mut self) -> Option<Tok> {
        let rest = &self.src[self.place..];
        if rest.is_empty() {
            return None;
        }
        loop {
            match (self.patterns.longest(self.mode, rest), self.mode) {
                (Some((kind, length)), _) => return self.token(kind, length, length),
                (None, Mode::Jump) => self.mode = Mode::Pattern,
                (None, Mode::Pattern) => self.mode = Mode::Normal,
                (None, Mode::Normal) => return self.unmatched(rest),
            }
        }
    }
}

/// The tokens that a reader gives from a mode on, with switches.
pub fn read(reader: &mut impl Reader, start: Mode, switches: &[Switch], list: &mut Vec<Tok>) {
    list.clear();
    reader.enter(start);
    loop {
        for &(count, mode) in switches {
            if count == list.len() {
                reader.enter(mode);
            }
        }
        match reader.next() {
            Some(token) => list.push(token),
            None => return,
        }
    }
}

/// The tokens that the port gives from a mode on. At each switch, and they come in order, it is asked again from the end of the last token.
pub fn read_port(src: &[u8], start: Mode, switches: &[Switch], room: &mut Vec<u32>, list: &mut Vec<Tok>) -> Result<(), u32> {
    list.clear();
    list.extend_from_slice(port::tokens(src, 0, start, room)?);
    for &(count, mode) in switches {
        if count <= list.len() {
            list.truncate(count);
            let place = list.last().map_or(0, |token| token.end as usize);
            list.extend_from_slice(port::tokens(src, place, mode, room)?);
        }
    }
    Ok(())
}
