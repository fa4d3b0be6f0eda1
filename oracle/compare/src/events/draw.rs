//! Random calls on an event stream.
use super::model::{Answer, Call, Span};
use super::sequence::{Outside, Sequence, Standing, Step};
use crate::random::Random;
use rust::events::last_kind;

/// A ring of 0 to 12 or of 512 slots, perhaps with some numbers more, and 0 to 5 or 128 open places, each number drawn.
pub fn rooms(random: &mut Random) -> (Vec<u32>, Vec<usize>) {
    let slots = if random.below(3) == 0 { random.below(13) } else { 512 };
    let places = if random.below(3) == 0 { random.below(6) } else { 128 };
    let more = random.below(4);
    let room = random.numbers(4 * slots + more);
    (room, random.numbers(places).into_iter().map(|number| number as usize).collect())
}

/// How often each call is drawn, in the order of their numbers: where mostly events are pushed, where much is tried and taken back, and
/// where mostly nodes end and events are popped. A sequence goes round.
const WEIGHTS: [[usize; 9]; 4] =
    [[8, 2, 4, 2, 1, 1, 1, 1, 1], [6, 2, 3, 3, 1, 5, 6, 2, 1], [1, 1, 1, 12, 4, 0, 2, 12, 20], [1, 1, 1, 4, 1, 1, 1, 12, 40]];

/// The same where few tokens stand at a time, so that a truncation often leaves none.
const FEW_TOKENS: [usize; 9] = [2, 1, 3, 6, 2, 5, 8, 6, 12];

/// How the calls of a sequence are drawn.
pub struct Manner {
    /// In what way, if any, the sequence may leave the domain.
    leaves: Option<Outside>,
    /// How many calls are drawn by the same weights.
    phase: usize,
}

impl Manner {
    /// A manner at random; three of four stay in the domain.
    pub fn draw(random: &mut Random) -> Manner {
        let leaves = match random.below(12) {
            0 => Some(Outside::Forgets),
            1 => Some(Outside::Overlaps),
            2 => Some(Outside::Foreign),
            _ => None,
        };
        Manner { leaves, phase: *random.one_of(&[4, 8, 15, 60]) }
    }

    /// Up to 250 calls, and those that settle what is open and pop every event.
    pub fn calls(&self, random: &mut Random, sequence: &mut Sequence) {
        for turn in 0..10 + random.below(241) {
            let weights = if self.leaves == Some(Outside::Forgets) { &FEW_TOKENS } else { &WEIGHTS[turn / self.phase % WEIGHTS.len()] };
            let call = self.call(random, weights, sequence);
            if self.admits(call, sequence) && !(sequence.stream.refusal(call) == Some(4) && random.below(8) > 0) {
                sequence.call(call);
            }
        }
        settle(random, sequence);
    }

    /// Whether a call stays where this manner may go. A refused one does: it changes nothing.
    fn admits(&self, call: Call, sequence: &Sequence) -> bool {
        match sequence.standing(call) {
            Standing::Outside(outside) => self.leaves == Some(outside) || sequence.stream.refusal(call).is_some(),
            _ => true,
        }
    }

    /// A call for the stream as it is.
    fn call(&self, random: &mut Random, weights: &[usize], sequence: &Sequence) -> Call {
        match random.weighted(weights) {
            0 => Call::Token(self.kind(random), self.span(random, sequence)),
            1 => Call::Error(random.below(65_536) as u32, any_span(random)),
            2 => Call::Begin(self.kind(random)),
            3 => Call::End,
            4 => Call::EndWithError,
            5 => Call::Bookmark,
            6 => Call::Truncate(self.position(random, sequence)),
            7 => Call::Remove(self.position(random, sequence)),
            _ => Call::Pop,
        }
    }

    /// A kind of the Rust's, or a foreign one.
    fn kind(&self, random: &mut Random) -> u32 {
        let kinds = if self.leaves == Some(Outside::Foreign) && random.below(8) == 0 { 65_536 } else { last_kind() as usize + 1 };
        random.below(kinds) as u32
    }

    /// A span behind the last token, or one that overlaps it; now and then one that is refused, or at the limit.
    fn span(&self, random: &mut Random, sequence: &Sequence) -> Span {
        let last = sequence.stream.last[1];
        let start = match random.below(64) {
            0 | 1 => return any_span(random),
            2 => last.max(65_535 - random.below(8) as u32),
            3..16 if self.leaves == Some(Outside::Overlaps) => random.below(last as usize + 1) as u32,
            _ => last + random.one_of(&[0, 0, 0, 1, 5]),
        };
        [start, start + random.one_of(&[0, 1, 1, 2, 7, 200])]
    }

    /// The position of a live bookmark, or where there is none or in a foreign manner any one.
    fn position(&self, random: &mut Random, sequence: &Sequence) -> usize {
        match sequence.bookmarks.last() {
            Some(&last) if random.below(2) == 0 => last,
            Some(_) if self.leaves != Some(Outside::Foreign) || random.below(2) == 0 => *random.one_of(&sequence.bookmarks),
            _ if random.below(16) == 0 => u32::MAX as usize,
            _ => random.below(sequence.stream.events.len() + 3),
        }
    }
}

/// A span anywhere, perhaps one that is refused.
fn any_span(random: &mut Random) -> Span {
    let start = random.below(65_536) as u32;
    match random.below(16) {
        0 => [start, start.saturating_sub(1)],
        1 => [start, *random.one_of(&[65_536, u32::MAX])],
        2 => [*random.one_of(&[65_535, 65_536, u32::MAX]), 65_535],
        _ => [start, start + random.below(65_536 - start as usize) as u32],
    }
}

/// Ends the open nodes, removes the bookmarks and pops every event, as far as the room allows.
fn settle(random: &mut Random, sequence: &mut Sequence) {
    loop {
        let call = match sequence.bookmarks.first() {
            _ if !sequence.stream.open.is_empty() => *random.one_of(&[Call::End, Call::End, Call::EndWithError]),
            Some(&position) if position > sequence.stream.events.len() => Call::Error(0, [0, 0]),
            Some(&position) => Call::Remove(position),
            None => Call::Pop,
        };
        sequence.call(call);
        if let Some(Step { answer: Answer::None | Answer::Refused(_), .. }) = sequence.steps.last() {
            break;
        }
    }
}
