//! Random sources, and random calls on a window over them.
use super::model::Call;
use super::sequence::{Sequence, Step};
use crate::random::Random;

/// Pieces of sources that are read without 81 and 82 in normal mode.
#[rustfmt::skip]
const PIECES: &[&[u8]] = &[
    b"rule", b"and", b"x", b"ab", b"_1", b"$a", b"#a", b"@a", b"!a", b"1", b"4KB", b"0x1F", b"0o17", b"2.5", b"\"s\"", b"\"\\\"\"",
    b"\"\"\"t\n\"\"\"", b"/r/i", b"/*c*/", b"//l\n", b" ", b"  ", b"\t", b"\xC2\xA0", b"\n", b"\r\n", b"<<", b"==", b"!=", b"..", b"=",
    b"{", b"}", b"(", b")", b"[", b"]", b"-", b"|", b"4D", b"5A", b"~1F", b"AB", b"10", b"a\xD9\xA3", b"\xE2\x80\x83",
    b"{4D 5A [4-6] AB}", b"{ 01 (02 | ~A0) [0x1-] }", b"{AB/*h*/CD//l\n}",
];

/// Pieces that only a hex mode reads without 81 and 82, or that none does.
const ODD_PIECES: &[&[u8]] =
    &[b"??", b"{4? ??}", b"?", b";rule", b"\"a b", b"\xFF", b"\xE2\x80", b"\xE3\x80\x80", b"/*\xFF*/", b"/*", b"`", b"\0"];

/// A source of up to 60 pieces.
pub fn source(random: &mut Random) -> Vec<u8> {
    let odd = random.below(4) == 0;
    let mut src = Vec::new();
    for _ in 0..random.below(61) {
        let pieces = if odd && random.below(8) == 0 { ODD_PIECES } else { PIECES };
        src.extend_from_slice(*random.one_of(pieces));
    }
    src
}

/// A room of 0 to 8 or of 4,096 slots, perhaps with one or two numbers more, each number drawn.
pub fn room(random: &mut Random) -> Vec<u32> {
    let slots = *random.one_of(&[0, 1, 2, 3, 4, 5, 6, 7, 8, 4_096, 4_096, 4_096, 4_096]);
    let more = random.below(3);
    random.numbers(3 * slots + more)
}

/// How the calls of a sequence are drawn.
struct Manner {
    /// How often each call is drawn, in the order of their numbers.
    weights: [usize; 9],
    /// Whether a next is left out that would go over the edge of the domain. If not, the edge is sought: the least bookmark is restored
    /// and removed.
    careful: bool,
    /// Whether bookmarks are named that may not live, and peeks go further than 65,535.
    wild: bool,
    /// Whether a hex mode is entered after a brace or a bracket.
    hexed: bool,
}

impl Manner {
    /// A manner at random.
    fn draw(random: &mut Random) -> Manner {
        let mut weights = [0; 9];
        weights[0] = *random.one_of(&[2, 4, 12]);
        weights[1..6].fill_with(|| *random.one_of(&[0, 1, 4]));
        weights[3] = *random.one_of(&[0, 1, 1, 4, 30]);
        weights[6..8].fill_with(|| *random.one_of(&[0, 0, 1]));
        weights[8] = 1;
        let careful = random.below(4) > 0;
        if !careful {
            weights[3..5].copy_from_slice(&[4, 2]);
        }
        Manner { weights, careful, wild: random.below(4) == 0, hexed: random.below(2) == 0 }
    }

    /// A call for the window as it is; none where the one drawn is left out.
    fn call(&self, random: &mut Random, sequence: &Sequence) -> Option<Call> {
        let window = &sequence.window;
        match window.fetched.last() {
            Some([62, ..]) if self.hexed && random.below(2) == 0 => return Some(Call::Pattern),
            Some([66, ..]) if self.hexed && random.below(2) == 0 => return Some(Call::Jump),
            _ => {}
        }
        match sequence.steps.last() {
            Some(Step { call: Call::Restore(index), .. }) if !self.careful => return Some(Call::Remove(*index)),
            _ => {}
        }
        match random.weighted(&self.weights) {
            0 if self.careful && window.bookmarks.iter().min().is_some_and(|&least| least > window.current + 1) => None,
            0 => Some(Call::Next),
            1 => Some(Call::Peek(self.distance(random))),
            2 => Some(Call::HasMore),
            3 => Some(Call::Bookmark),
            4 => Some(Call::Restore(self.bookmark(random, sequence)?)),
            5 => Some(Call::Remove(self.bookmark(random, sequence)?)),
            6 => Some(Call::Pattern),
            7 => Some(Call::Jump),
            _ => Some(Call::Index),
        }
    }

    /// How far to peek.
    fn distance(&self, random: &mut Random) -> u32 {
        match random.below(32) {
            0 if self.wild => *random.one_of(&[65_536, u32::MAX]),
            0 => *random.one_of(&[1_000, 65_535]),
            1..4 => random.below(40) as u32,
            _ => *random.one_of(&[0, 0, 0, 1, 1, 1, 2, 2, 3, 4, 5, 7]),
        }
    }

    /// A live bookmark, or in the wild any index.
    fn bookmark(&self, random: &mut Random, sequence: &Sequence) -> Option<u32> {
        let window = &sequence.window;
        if self.wild && random.below(4) == 0 {
            return Some(if random.below(8) == 0 { u32::MAX } else { random.below(window.current + 3) as u32 });
        }
        match window.bookmarks.iter().min() {
            Some(&least) if !self.careful => Some(least as u32),
            Some(_) => Some(*random.one_of(&window.bookmarks) as u32),
            None => None,
        }
    }
}

/// 20 to 160 calls.
pub fn calls(random: &mut Random, sequence: &mut Sequence) {
    let manner = Manner::draw(random);
    for _ in 0..20 + random.below(141) {
        if let Some(call) = manner.call(random, sequence) {
            sequence.call(call);
        }
    }
}
