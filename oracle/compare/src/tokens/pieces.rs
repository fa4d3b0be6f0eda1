//! A source listed in pieces, by as many tokens as fit at a time: the pieces must be the whole list, and place, mode and count after each
//! of them what the plain reading has there.
use super::findings::hex;
use super::{MODES, PART, contents, part_of, sources};
use crate::parts::in_parts;
use crate::random::Random;
use crate::row::Row;
use reading::plain::{self, Mode, Tok};

/// What a lent count has before a call.
const STOOD: u32 = 77;

/// How many numbers a piece has room for at most, where every number is tried.
const SMALL: usize = 13;

/// Calls and listings that were compared, and differences.
#[derive(Default)]
struct Pieces {
    listings: u64,
    calls: u64,
    differences: Vec<String>,
}

/// Random sources from a random place on, in each mode, and rule files, in pieces of every small size and of some greater ones; and calls
/// that are refused.
pub fn pieces(count: u64, seed: u64, paths: &[&str]) -> Row {
    let files = contents(paths);
    let mut all = in_parts(
        count.div_ceil(PART),
        || (),
        |(), part| {
            let (mut random, mut pieces) = (Random::of_part(seed, part), Pieces::default());
            part_of(count, part).for_each(|_| pieces.random(&mut random));
            pieces
        },
    );
    all.extend(in_parts(files.len() as u64, || (), |(), part| Pieces::of_file(&files[part as usize])));
    let differences: Vec<&String> = all.iter().flat_map(|pieces| &pieces.differences).collect();
    differences.iter().take(5).for_each(|words| println!("DIFFERS, {words}"));
    let (cases, differ) = (all.iter().map(|pieces| pieces.listings).sum(), differences.len() as u64);
    let what = format!("tokens in pieces, {} rule files and random sources, seed {seed}", files.len());
    Row { what, cases, compared: all.iter().map(|pieces| pieces.calls).sum(), equal_whole: cases - differ, explained: 0, differ }
}

impl Pieces {
    /// A random source, in every way.
    fn random(&mut self, random: &mut Random) {
        let (src, _, _) = sources::random(random);
        let place = random.below(src.len() + 1) as u32;
        for mode in MODES {
            for room in 0..SMALL {
                self.listing(&src, 0, mode, room);
                self.listing(&src, place, mode, room);
            }
            self.listing(&src, place, mode, 3 * src.len() + random.below(4));
        }
        let room = random.below(SMALL);
        for (place, mode) in [(src.len() as u32 + 1, 0), (0, 3), (u32::MAX, 2), (place, u32::MAX)] {
            self.refused(&src, place, mode, room, 24);
        }
    }

    /// A rule file in normal mode, in pieces that it takes some of.
    fn of_file(src: &[u8]) -> Pieces {
        let mut pieces = Pieces::default();
        for room in [3, 8, 3 * 64, 3 * 1_000 + 1, 3 * src.len()] {
            pieces.listing(src, 0, Mode::Normal, room);
        }
        let longer = [src, &vec![b'a'; 65_536 - src.len()]].concat();
        pieces.refused(&longer, 0, 0, 24, 1);
        pieces.refused(&longer, u32::MAX, 3, 24, 1);
        pieces
    }

    /// Lists a source in pieces, each with room for so many numbers.
    fn listing(&mut self, src: &[u8], place: u32, mode: Mode, room: usize) {
        self.listings += 1;
        if let Err(what) = self.compared(src, place, mode, room) {
            self.differences.push(format!("{what}, from {place} in mode {mode:?}, by {room} numbers, of {}", hex(src)));
        }
    }

    /// The same, up to what differs. Without room for a token, one call is made.
    fn compared(&mut self, src: &[u8], place: u32, mode: Mode, room: usize) -> Result<(), String> {
        let (mut at, mut number) = (place, mode as u32);
        let mut model = (place as usize, mode);
        loop {
            let mut out = vec![STOOD; room];
            let mut count = STOOD;
            self.calls += 1;
            port::some_tokens(src, &mut at, &mut number, &mut out, &mut count).map_err(|refusal| format!("refused by {refusal}"))?;
            let (expected, many) = piece(src, &mut model, room);
            if (at as usize, number, count, &out) != (model.0, model.1 as u32, many, &expected) {
                let wanted = format!("{many} up to {} in mode {:?}", model.0, model.1);
                return Err(format!("{count} tokens up to {at} in mode {number} where {wanted} are wanted, or other numbers"));
            }
            if many == 0 {
                return if room < 3 || at as usize == src.len() { Ok(()) } else { Err(format!("no token at {at}")) };
            }
        }
    }

    /// A call that is refused by a number, and changes nothing.
    fn refused(&mut self, src: &[u8], place: u32, mode: u32, room: usize, number: u32) {
        self.listings += 1;
        self.calls += 1;
        let mut given = (place, mode, vec![STOOD; room], STOOD);
        let refused = port::some_tokens(src, &mut given.0, &mut given.1, &mut given.2, &mut given.3);
        if refused != Err(number) || given != (place, mode, vec![STOOD; room], STOOD) {
            let words = format!("{refused:?} where refusal {number} is wanted, or other numbers");
            self.differences.push(format!("{words}, from {place} in mode {mode}, of {} bytes", src.len()));
        }
    }
}

/// The next piece by the plain reading, with room for so many numbers: what stands there then, and how many tokens it has.
fn piece(src: &[u8], (place, mode): &mut (usize, Mode), room: usize) -> (Vec<u32>, u32) {
    let mut out = vec![STOOD; room];
    let mut count = 0;
    for slot in out.chunks_exact_mut(3) {
        let Some((Tok { kind, start, end }, reached)) = plain::scan(src, *place, *mode) else { break };
        slot.copy_from_slice(&[kind, start, end]);
        (*place, *mode) = (end as usize, reached);
        count += 1;
    }
    (out, count)
}
