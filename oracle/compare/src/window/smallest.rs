//! Every short sequence of calls on small sources: the smallest one where port and Rust differ, for each kind of difference.
use super::model::{Answer, Call};
use super::script::{told, words};
use super::sequence::{Sequence, Standing};
use super::{alike, through_port};
use crate::random::Random;
use crate::row::Row;
use crate::search::{self, Search};
use crate::tally::Tally;

/// The sources, shortest first: none to three tokens.
const SOURCES: [&[u8]; 4] = [b"", b"a", b"a=", b"a=b"];

/// The numbers of slots: none, too few, and more than there are tokens.
const SLOTS: [usize; 3] = [0, 1, 8];

/// Calls that name no bookmark, and how many calls a sequence has at most: all, and those that matter to indexes.
const ALPHABETS: [(&[Call], usize); 2] = [
    (&[Call::Next, Call::HasMore, Call::Peek(1), Call::Bookmark, Call::Peek(0), Call::Pattern, Call::Jump, Call::Index], 6),
    (&[Call::Next, Call::HasMore, Call::Peek(1), Call::Bookmark], 8),
];

/// Sequences on one source, with so many slots.
struct Windows {
    src: &'static [u8],
    slots: usize,
    alphabet: &'static [Call],
    most: usize,
}

/// All short sequences, and the one that has a bookmark too many.
pub fn smallest() -> Row {
    let searches: Vec<Windows> = ALPHABETS
        .iter()
        .flat_map(|&(alphabet, most)| SOURCES.map(|src| SLOTS.map(|slots| Windows { src, slots, alphabet, most })))
        .flatten()
        .collect();
    search::smallest("window smallest", &searches, &[Call::Bookmark; 65])
}

impl Windows {
    /// The sequence of these calls.
    fn sequence(&self, calls: &[Call]) -> Sequence<'static> {
        let mut sequence = Sequence::open(self.src, vec![7; 3 * self.slots]);
        calls.iter().for_each(|&call| sequence.call(call));
        sequence
    }
}

impl Search for Windows {
    type Call = Call;

    fn most(&self) -> usize {
        self.most
    }

    fn choices(&self, calls: &[Call]) -> Vec<Call> {
        let mut live = self.sequence(calls).window.bookmarks;
        live.sort();
        live.dedup();
        let named = live.iter().flat_map(|&index| [Call::Restore(index as u32), Call::Remove(index as u32)]);
        self.alphabet.iter().copied().chain(named).collect()
    }

    fn judge(&self, calls: &[Call], random: &mut Random, tally: &mut Tally) -> Result<bool, String> {
        let sequence = self.sequence(calls);
        let answers = through_port(&sequence, random)?;
        let mut rust = rust::window::Window::open(self.src);
        let answer = calls.iter().map(|call| call.asked_of(&mut rust)).last().flatten();
        let port = &answers[answers.len() - 4..];
        if alike(answer, port) {
            return Ok(true);
        }
        let apart = format!("{} there, {} here", told(answer), words(port));
        let over_the_edge = sequence.steps.iter().any(|step| matches!(step.standing, Standing::Edge(_)));
        let rule = match sequence.steps.last().map(|step| step.answer) {
            Some(Answer::Refused(number)) => format!("refused {number} here"),
            _ if over_the_edge => "a next goes over the edge".to_string(),
            _ => return Err(apart),
        };
        tally.count(&rule);
        tally.keep_smallest(&rule, calls.len(), || format!("{}: {apart}", self.words(calls)));
        Ok(false)
    }

    fn words(&self, calls: &[Call]) -> String {
        self.sequence(calls).words(calls.len())
    }
}
