//! The sources that are compared.
use super::MODES;
use super::readers::{Plain, Reader, Switch};
use crate::random::Random;
use reading::plain::{DIGITS, KEYWORDS, Mode};

/// Bytes that matter to the rules; the last four are parts of characters.
pub const ALPHABET: [u8; 25] = *b"axoKB_08.\"\\/*!=~?- \r\n\xD9\xA3\x80\xE2";

/// Texts that matter to the rules: prefixes, suffixes, quotes, comments, blanks that are none, digits, ill-formed characters, operators.
#[rustfmt::skip]
const PIECES: &[&[u8]] = &[
    b"KB", b"MB", b"0x", b"0o", b"/*", b"*/", b"//", b"\"\"\"", b"\\\"", b"\\\n", b"\"s\"", b"\"\\\"\"", b"\"\"\"t\n\"\"\"", b"/r/is", b"/*c*/", b"//l\n",
    b"\xC2\xA0", b"\xE2\x80\x80", b"\xE2\x80\x8A", b"\xE2\x80\x8B", b"\xE2\x80\xAF", b"\xE2\x81\x9F", b"\xE3\x80\x80", b"\xC2\x85", b"\xE2\x80\xA8",
    b"\xE1\x9A\x80", b"\xF0\x9D\x9F\x8E", b"\xF0\x90\xB5\x80", b"\xF0\x91\xB7\xA0", b"\xED\xA0\x80", b"\xC0\x80", b"\xF4\x90\x80\x80",
    b"\xEF\xBC\x90", b"\xE0\xA5\xA6", b"$", b"#", b"@", b"!", b"<<", b">>", b"==", b"!=", b">=", b"<=", b"<", b">", b"&", b"%", b"^", b"+", b":", b",",
    b"{", b"}", b"[", b"]", b"(", b"|", b")", b"\r\n", b"\t", b";", b"\x0B", b"\x0C", b"\x00", b"\x7F", b"\xFF", b"4", b"fF", b"??", b"~1F",
];

/// Texts that are tokens of normal mode wherever they stand.
#[rustfmt::skip]
const TOKENS: &[&[u8]] = &[
    b"a", b"_1", b"$a", b"#", b"@x", b"!y", b"1", b"10KB", b"2MB", b"0x1F", b"0o17", b"2.5", b"1._", b"\"s\"", b"\"\xFF\"", b"\"\"\"t\n\"\"\"", b"/r/i", b"/*\xFF*/",
    b"//l\n", b" ", b"\t\xC2\xA0", b"\n", b"\r\n", b"<<", b"==", b"!=", b".", b"=", b"-", b"|", b"~", b"{", b"}", b"(", b")", b"[", b"]", b"AB", b"~1F", b"4D",
];

/// Every source of one up to so many letters that begins with a certain one.
pub fn every(letters: &[u8], first: usize, longest: usize, mut each: impl FnMut(&[u8])) {
    for length in 1..=longest {
        let mut digits = vec![0; length];
        digits[0] = first;
        let mut src: Vec<u8> = digits.iter().map(|digit| letters[*digit]).collect();
        loop {
            each(&src);
            let Some(place) = (1..length).rev().find(|place| digits[*place] + 1 < letters.len()) else { break };
            digits[place] += 1;
            digits[place + 1..].fill(0);
            (place..length).for_each(|place| src[place] = letters[digits[place]]);
        }
    }
}

/// A random source, seldom a long one, the mode it is read in at first, and up to three switches.
pub fn random(random: &mut Random) -> (Vec<u8>, Mode, Vec<Switch>) {
    let put = random.one_of(&[put_token, put_piece, put_any]);
    let most = if random.below(2_000) == 0 { 4_000 } else { 40 };
    let mut src = Vec::new();
    for _ in 0..random.below(most) {
        put(&mut src, random);
    }
    let mut switches: Vec<Switch> = (0..random.below(4)).map(|_| (random.below(12), *random.one_of(&MODES[1..]))).collect();
    switches.sort_by_key(|(count, _)| *count);
    (src, *random.one_of(&MODES), switches)
}

/// Adds a token of normal mode, or a keyword.
fn put_token(src: &mut Vec<u8>, random: &mut Random) {
    match random.below(8) {
        0 => src.extend(*random.one_of(&KEYWORDS)),
        1 => {
            src.push(b'a');
            put_digit(src, random, 0);
        }
        _ => src.extend(*random.one_of(TOKENS)),
    }
}

/// Adds something that matters to the rules.
fn put_piece(src: &mut Vec<u8>, random: &mut Random) {
    match random.below(8) {
        0 => src.extend(*random.one_of(&KEYWORDS)),
        1 => put_digit(src, random, 1),
        2..=4 => src.extend(*random.one_of(PIECES)),
        _ => src.push(*random.one_of(&ALPHABET[..21])),
    }
}

/// Adds something that matters to the rules, or any byte.
fn put_any(src: &mut Vec<u8>, random: &mut Random) {
    match random.below(4) {
        0 => src.push(random.below(256) as u8),
        1 => src.push(*random.one_of(&ALPHABET)),
        _ => put_piece(src, random),
    }
}

/// Adds a decimal digit of some script, or a character up to so many places beside a run of ten.
fn put_digit(src: &mut Vec<u8>, random: &mut Random, beside: u32) {
    let first = random.one_of(&DIGITS) - beside;
    let digit = char::from_u32(first + random.below(10 + 2 * beside as usize) as u32).expect("a character");
    src.extend_from_slice(digit.encode_utf8(&mut [0; 4]).as_bytes());
}

/// A copy with up to four damages: some bytes removed, doubled, replaced, swapped with others, or all behind a place cut off.
pub fn damaged(src: &[u8], random: &mut Random) -> Vec<u8> {
    let mut copy = src.to_vec();
    for _ in 0..1 + random.below(4) {
        if copy.is_empty() {
            break;
        }
        let from = random.below(copy.len());
        let to = copy.len().min(from + 1 + random.below(4));
        match random.below(9) {
            0 | 1 => drop(copy.drain(from..to)),
            2 | 3 => drop(copy.splice(from..from, copy[from..to].to_vec())),
            4 => copy[from] = random.below(256) as u8,
            5 => copy[from] = *random.one_of(&ALPHABET),
            6 | 7 => copy.swap(from, to - 1),
            _ => copy.truncate(to),
        }
    }
    copy
}

/// The switches that the grammar parser makes: to pattern mode behind `$id = {`, to jump mode behind `[` in a hex pattern.
pub fn parser_switches(src: &[u8]) -> Vec<Switch> {
    let (mut reader, mut switches) = (Plain::open(src), Vec::new());
    let (mut last, mut in_pattern, mut count) = ([0; 3], false, 0);
    while let Some(token) = reader.next() {
        count += 1;
        if matches!(token.kind, 77..=79) {
            continue;
        }
        last = [last[1], last[2], token.kind];
        let mode = match token.kind {
            62 if last == [68, 55, 62] => Some(Mode::Pattern),
            66 if in_pattern => Some(Mode::Jump),
            _ => None,
        };
        in_pattern = (in_pattern || mode.is_some()) && token.kind != 63;
        if let Some(mode) = mode {
            reader.enter(mode);
            switches.push((count, mode));
        }
    }
    switches
}
