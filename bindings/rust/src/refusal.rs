// SPDX-License-Identifier: BSD-3-Clause
//! Why a call is refused.
use crate::sys;
use std::error::Error;
use std::fmt;

/// Why a call is refused. A refused call changes nothing: it may be made again once the cause is gone.
///
/// ```
/// use warpthistle::{Refusal, TokenStream};
/// let refusal = TokenStream::new(&[b' '; 65_536]).unwrap_err();
/// assert_eq!(refusal, Refusal::SourceTooLong);
/// assert_eq!(refusal.number(), 1);
/// assert_eq!(refusal.to_string(), "the source has more than 65,535 bytes (refusal 1)");
/// ```
#[derive(Clone, Copy, Debug, PartialEq, Eq, PartialOrd, Ord, Hash)]
#[non_exhaustive]
pub enum Refusal {
    /// 1: the source has more than [`SOURCE_LIMIT`](crate::SOURCE_LIMIT) bytes.
    SourceTooLong = 1,
    /// 2: more tokens would be kept than there are slots. It is given by a [`TightTokenStream`](crate::TightTokenStream) alone.
    WindowFull = 2,
    /// 3: as many bookmarks are live as there can be: 64 of a token stream, 65,535 of an event stream.
    TooManyBookmarks = 3,
    /// 4: no such bookmark is live.
    NotLive = 4,
    /// 5: no slot is left for an event beyond those that open nodes reserve.
    EventsFull = 5,
    /// 6: no node is open.
    NothingOpen = 6,
    /// 7: the span starts behind its end, or ends past 65,535.
    NoSpan = 7,
    /// 8: the events from the bookmark on are no whole nodes.
    Unbalanced = 8,
    /// 9: a bookmark lives, or a node is open.
    NotSettled = 9,
    /// 10: the bookmark is past the last event.
    PastTheEnd = 10,
    /// 11: as many nodes are open as there are places.
    TooDeep = 11,
    /// 15: what is lent for the answer is too short. No call of this crate is refused by it, as the crate lends what is needed.
    NoRoom = 15,
    /// 24: what is handed over is not what the last call left, or a place is past the source. The streams of this crate keep their records
    /// to themselves, so that [`Tokens::at`](crate::Tokens::at) alone can be refused by it.
    NotAsOpened = 24,
}

impl Refusal {
    /// All refusals, in the order of their numbers.
    pub const ALL: &'static [Refusal] = &[
        Refusal::SourceTooLong,
        Refusal::WindowFull,
        Refusal::TooManyBookmarks,
        Refusal::NotLive,
        Refusal::EventsFull,
        Refusal::NothingOpen,
        Refusal::NoSpan,
        Refusal::Unbalanced,
        Refusal::NotSettled,
        Refusal::PastTheEnd,
        Refusal::TooDeep,
        Refusal::NoRoom,
        Refusal::NotAsOpened,
    ];

    /// The number of the refusal, as the C header has it.
    pub const fn number(self) -> u32 {
        self as u32
    }

    /// The refusal that has this number, if there is one.
    pub fn from_number(number: u32) -> Option<Refusal> {
        Refusal::ALL.iter().copied().find(|refusal| refusal.number() == number)
    }

    /// What is wrong, in words.
    const fn words(self) -> &'static str {
        match self {
            Refusal::SourceTooLong => "the source has more than 65,535 bytes",
            Refusal::WindowFull => "more tokens would be kept than there are slots",
            Refusal::TooManyBookmarks => "as many bookmarks are live as there can be",
            Refusal::NotLive => "no such bookmark is live",
            Refusal::EventsFull => "no slot is left for an event beyond those that open nodes reserve",
            Refusal::NothingOpen => "no node is open",
            Refusal::NoSpan => "the span starts behind its end, or ends past 65,535",
            Refusal::Unbalanced => "the events from the bookmark on are no whole nodes",
            Refusal::NotSettled => "a bookmark lives, or a node is open",
            Refusal::PastTheEnd => "the bookmark is past the last event",
            Refusal::TooDeep => "as many nodes are open as there are places",
            Refusal::NoRoom => "what is lent for the answer is too short",
            Refusal::NotAsOpened => "what is handed over is not what the last call left, or a place is past the source",
        }
    }
}

/// Writes what is wrong, and the number.
impl fmt::Display for Refusal {
    fn fmt(&self, f: &mut fmt::Formatter<'_>) -> fmt::Result {
        write!(f, "{} (refusal {})", self.words(), self.number())
    }
}

impl Error for Refusal {}

/// The answer of a call that gives nothing but its status.
#[inline]
pub(crate) fn done(status: u32) -> Result<(), Refusal> {
    if status == sys::DONE {
        Ok(())
    } else {
        Err(refused(status))
    }
}

/// The answer of a call that finds something, or none.
#[inline]
pub(crate) fn found(status: u32) -> Result<bool, Refusal> {
    match status {
        sys::DONE => Ok(true),
        sys::NONE => Ok(false),
        _ => Err(refused(status)),
    }
}

/// The refusal of a status.
#[cold]
fn refused(status: u32) -> Refusal {
    Refusal::from_number(status).unwrap_or_else(|| panic!("the library answered {status}, which is no status of its interface"))
}

/// What a call answers that is never refused.
#[inline]
pub(crate) fn sure<T>(answer: Result<T, Refusal>) -> T {
    answer.unwrap_or_else(|refusal| broken(refusal))
}

/// The library does not keep its promise. What is proved of it says that this does not happen.
#[cold]
fn broken(refusal: Refusal) -> ! {
    panic!("the library refused a call that it never refuses: {refusal}")
}
