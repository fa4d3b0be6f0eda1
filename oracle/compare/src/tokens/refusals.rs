//! What the port refuses, and that a refused call changes nothing; listings.
use super::findings::hex;
use super::{MODES, PART, part_of, sources};
use crate::parts::in_parts;
use crate::random::Random;
use crate::row::Row;
use reading::plain::{self, Tok};

/// What a lent count has before a call.
const STOOD: u32 = 77;

/// What a call answered, and the lent room and count afterwards.
type Left<T, N> = (Result<(), u32>, (Vec<T>, N));

/// How many calls were made, how many of them refused with which number, and differences.
#[derive(Default)]
struct Calls {
    calls: u64,
    refused: [u64; 25],
    differences: Vec<String>,
}

impl Calls {
    /// Notes a call: what it answered and left must be what is expected.
    fn note<T: PartialEq, N: PartialEq>(&mut self, what: &str, src: &[u8], expected: Left<T, N>, given: Left<T, N>) {
        self.calls += 1;
        if let Err(number) = given.0 {
            self.refused[number.min(24) as usize] += 1;
        }
        if expected != given {
            let (expected, given) = (expected.0, given.0);
            self.differences.push(format!("{what} of {}: {given:?} where {expected:?} is wanted, or other numbers lent", hex(src)));
        }
    }

    /// Asks for tokens with any place, mode and room; numbers that stood in the room and are not written must stay.
    fn tokens(&mut self, src: &[u8], place: u32, mode: u32, room: Vec<u32>) {
        let mut given = (room.clone(), STOOD);
        let answer = port::lent_tokens(src, place, mode, &mut given.0, &mut given.1);
        let expected = expected_tokens(src, place, mode, room);
        self.note(&format!("tokens from {place} in mode {mode}"), src, expected, (answer, given));
    }

    /// Asks for the listing with a room of so many bytes.
    fn listing(&mut self, src: &[u8], text: &[u8], room: usize) {
        let room = vec![b'#'; room];
        let mut given = (room.clone(), STOOD as usize);
        let answer = port::listing(src, &mut given.0, &mut given.1);
        let what = format!("listing with a room of {}", room.len());
        self.note(&what, src, expected_listing(src, text, room), (answer, given));
    }

    /// Asks for the listing with exact room, with a byte less and with more.
    fn listings(&mut self, src: &[u8]) {
        let mut text = Vec::new();
        plain::listing(src, &mut text);
        for room in [text.len(), text.len() - 1, text.len() + 9, 0] {
            self.listing(src, &text, room);
        }
    }
}

/// What document 01 wants of a call for tokens: the answer, and the room and the count afterwards.
fn expected_tokens(src: &[u8], place: u32, mode: u32, mut room: Vec<u32>) -> Left<u32, u32> {
    if src.len() > 65_535 {
        return (Err(1), (room, STOOD));
    }
    if place as usize > src.len() || mode as usize >= MODES.len() {
        return (Err(24), (room, STOOD));
    }
    let mut list = Vec::new();
    plain::scan_all(src, place as usize, MODES[mode as usize], &mut list);
    if room.len() < 3 * list.len() {
        return (Err(15), (room, STOOD));
    }
    for (slot, Tok { kind, start, end }) in room.chunks_mut(3).zip(&list) {
        slot.copy_from_slice(&[*kind, *start, *end]);
    }
    (Ok(()), (room, list.len() as u32))
}

/// What document 01 wants of a call for the listing, which has this text: the answer, and the room and the length afterwards.
fn expected_listing(src: &[u8], text: &[u8], mut room: Vec<u8>) -> Left<u8, usize> {
    if src.len() > 65_535 {
        return (Err(1), (room, STOOD as usize));
    }
    if room.len() < text.len() {
        return (Err(15), (room, STOOD as usize));
    }
    room[..text.len()].copy_from_slice(text);
    (Ok(()), (room, text.len()))
}

/// Random calls with forged places and modes and with short rooms, then sources of the greatest length and of one byte more.
pub fn refusals(count: u64, seed: u64) -> Row {
    let mut all = in_parts(
        count.div_ceil(PART),
        || (),
        |(), part| {
            let (mut random, mut calls) = (Random::of_part(seed, part), Calls::default());
            part_of(count, part).for_each(|_| forged(&mut calls, &mut random));
            calls
        },
    );
    all.push(longest());
    let refused = |number: usize| all.iter().map(|calls| calls.refused[number]).sum::<u64>();
    println!("calls refused with 1: {}, with 15: {}, with 24: {}", refused(1), refused(15), refused(24));
    let differences: Vec<&String> = all.iter().flat_map(|calls| &calls.differences).collect();
    differences.iter().take(5).for_each(|words| println!("DIFFERS, {words}"));
    let (calls, differ) = (all.iter().map(|calls| calls.calls).sum(), differences.len() as u64);
    let what = format!("refusals of tokens and listings, lent room, seed {seed}");
    Row { what, cases: calls, compared: calls, equal_whole: calls - differ, explained: 0, differ }
}

/// A random source: tokens with random place, mode and room, then with exact room and with a number less; and listings.
fn forged(calls: &mut Calls, random: &mut Random) {
    let (src, _, _) = sources::random(random);
    let place = match random.below(4) {
        0 => random.below(1 << 32) as u32,
        _ => random.below(src.len() + 3) as u32,
    };
    let mode = match random.below(4) {
        0 => random.below(1 << 32) as u32,
        _ => random.below(4) as u32,
    };
    let size = random.below(3 * src.len() + 4);
    let mut numbers = |size: usize| (0..size).map(|_| random.below(1 << 32) as u32).collect();
    calls.tokens(&src, place, mode, numbers(size));
    let mut list = Vec::new();
    plain::scan_all(&src, 0, MODES[0], &mut list);
    for size in [3 * list.len(), (3 * list.len()).saturating_sub(1)] {
        calls.tokens(&src, 0, 0, numbers(size));
    }
    calls.listings(&src);
}

/// Sources of 65,535 bytes, which are taken, and of 65,536, which are not, of bytes that make one token, many, or none that matches.
fn longest() -> Calls {
    let mut calls = Calls::default();
    for byte in *b"a \n\"/;\xFF\xE2" {
        for length in [65_535, 65_536] {
            let src = vec![byte; length];
            for (mode, size) in [(0, 3 * length), (1, 3 * length), (2, 3 * length), (0, 3 * length - 4), (0, 0)] {
                calls.tokens(&src, 0, mode, vec![5; size]);
                calls.tokens(&src, length as u32 - 1, mode, vec![5; size]);
            }
            calls.listings(&src);
        }
    }
    calls
}
