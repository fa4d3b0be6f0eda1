//! A scanner written by hand from document 01's text: a second reading of it, and the baseline of speed. It stands alone:
//! `rustc -O plain.rs` makes a program that prints the listing of standard input.

/// The three modes, by number.
#[derive(Clone, Copy, PartialEq, Eq, Debug)]
pub enum Mode {
    Normal,
    Pattern,
    Jump,
}

/// A token: the number of its kind, where it starts and where it ends.
#[derive(Clone, Copy, PartialEq, Eq, Debug)]
#[repr(C)]
pub struct Tok {
    pub kind: u32,
    pub start: u32,
    pub end: u32,
}

/// The keywords in byte order of spelling, which numbers them from 1 on.
#[rustfmt::skip]
pub const KEYWORDS: [&[u8]; 40] = [
    b"all", b"and", b"any", b"ascii", b"at", b"base64", b"base64wide", b"condition", b"contains", b"defined",
    b"endswith", b"entrypoint", b"false", b"filesize", b"for", b"fullword", b"global", b"icontains", b"iendswith",
    b"iequals", b"import", b"in", b"include", b"istartswith", b"matches", b"meta", b"nocase", b"none", b"not", b"of",
    b"or", b"private", b"rule", b"startswith", b"strings", b"them", b"true", b"wide", b"with", b"xor",
];

/// The first characters of the runs of ten decimal digits (Nd) of Unicode 16.0.
#[rustfmt::skip]
pub const DIGITS: [u32; 76] = [
    0x0030, 0x0660, 0x06F0, 0x07C0, 0x0966, 0x09E6, 0x0A66, 0x0AE6, 0x0B66, 0x0BE6,
    0x0C66, 0x0CE6, 0x0D66, 0x0DE6, 0x0E50, 0x0ED0, 0x0F20, 0x1040, 0x1090, 0x17E0,
    0x1810, 0x1946, 0x19D0, 0x1A80, 0x1A90, 0x1B50, 0x1BB0, 0x1C40, 0x1C50, 0xA620,
    0xA8D0, 0xA900, 0xA9D0, 0xA9F0, 0xAA50, 0xABF0, 0xFF10, 0x104A0, 0x10D30, 0x10D40,
    0x11066, 0x110F0, 0x11136, 0x111D0, 0x112F0, 0x11450, 0x114D0, 0x11650, 0x116C0, 0x116D0,
    0x116DA, 0x11730, 0x118E0, 0x11950, 0x11BF0, 0x11C50, 0x11D50, 0x11DA0, 0x11F50, 0x16130,
    0x16A60, 0x16AC0, 0x16B50, 0x16D70, 0x1CCF0, 0x1D7CE, 0x1D7D8, 0x1D7E2, 0x1D7EC, 0x1D7F6,
    0x1E140, 0x1E2F0, 0x1E4F0, 0x1E5F1, 0x1E950, 0x1FBF0,
];

/// Kind and end of a match.
type Match = (u32, usize);

/// The byte at a place, if the source has one there.
fn byte(src: &[u8], at: usize) -> Option<u8> {
    src.get(at).copied()
}

/// The place behind a run of bytes.
fn run(src: &[u8], mut at: usize, belongs: impl Fn(u8) -> bool) -> usize {
    while at < src.len() && belongs(src[at]) {
        at += 1;
    }
    at
}

/// Whether a byte is a digit of an integer with `0x`.
fn is_hexadecimal(b: u8) -> bool {
    b.is_ascii_hexdigit()
}

/// Whether a byte is a digit of an integer with `0o`.
fn is_octal(b: u8) -> bool {
    matches!(b, b'0'..=b'7')
}

/// Length and value of the well-formed character at a place, after Table 3-7 of the Unicode Standard.
fn character(src: &[u8], at: usize) -> Option<(usize, u32)> {
    let first = byte(src, at)?;
    let next = |k: usize| byte(src, at + k).unwrap_or(0);
    let (b, c, d) = (next(1), next(2), next(3));
    let bits = |b: u8| u32::from(b & 0x3F);
    let trails = |b: u8| matches!(b, 0x80..=0xBF);
    match first {
        0x00..=0x7F => Some((1, u32::from(first))),
        0xC2..=0xDF if trails(b) => Some((2, u32::from(first & 0x1F) << 6 | bits(b))),
        0xE0..=0xEF if second_of_three(first, b) && trails(c) => Some((3, u32::from(first & 0x0F) << 12 | bits(b) << 6 | bits(c))),
        0xF0..=0xF4 if second_of_four(first, b) && trails(c) && trails(d) => {
            Some((4, u32::from(first & 0x07) << 18 | bits(b) << 12 | bits(c) << 6 | bits(d)))
        }
        _ => None,
    }
}

/// Whether the second byte of three can follow the first.
fn second_of_three(first: u8, second: u8) -> bool {
    match first {
        0xE0 => matches!(second, 0xA0..=0xBF),
        0xED => matches!(second, 0x80..=0x9F),
        _ => matches!(second, 0x80..=0xBF),
    }
}

/// Whether the second byte of four can follow the first.
fn second_of_four(first: u8, second: u8) -> bool {
    match first {
        0xF0 => matches!(second, 0x90..=0xBF),
        0xF4 => matches!(second, 0x80..=0x8F),
        _ => matches!(second, 0x80..=0xBF),
    }
}

/// Whether a character is a decimal digit (Nd).
pub fn is_digit(c: u32) -> bool {
    match DIGITS.binary_search(&c) {
        Ok(_) => true,
        Err(0) => false,
        Err(k) => c - DIGITS[k - 1] < 10,
    }
}

/// Whether a character has the property White_Space.
pub fn is_white_space(c: u32) -> bool {
    matches!(c, 0x09..=0x0D | 0x20 | 0x85 | 0xA0 | 0x1680 | 0x2000..=0x200A | 0x2028 | 0x2029 | 0x202F | 0x205F | 0x3000)
}

/// Whether a character may stand in a blank run.
pub fn is_blank(c: u32) -> bool {
    matches!(c, 0x20 | 0x09 | 0xA0 | 0x2000..=0x200A | 0x202F | 0x205F)
}

/// The place behind a run of well-formed characters, of which those of ASCII are asked for by their byte.
fn run_of_characters(src: &[u8], mut at: usize, ascii: impl Fn(u8) -> bool, other: impl Fn(u32) -> bool) -> usize {
    while let Some(b) = byte(src, at) {
        match b {
            0x00..=0x7F if ascii(b) => at += 1,
            0x00..=0x7F => break,
            _ => match character(src, at) {
                Some((length, c)) if other(c) => at += length,
                _ => break,
            },
        }
    }
    at
}

/// The place behind the word tail, perhaps empty, at a place.
fn word_tail(src: &[u8], at: usize) -> usize {
    run_of_characters(src, at, |b| b.is_ascii_alphanumeric() || b == b'_', is_digit)
}

/// The blank run or newline at a place.
fn blanks_or_newline(src: &[u8], at: usize) -> Option<Match> {
    match src[at] {
        b'\n' => Some((79, at + 1)),
        b'\r' if byte(src, at + 1) == Some(b'\n') => Some((79, at + 2)),
        b'\r' => Some((79, at + 1)),
        _ => {
            let end = run_of_characters(src, at, |b| b == b' ' || b == b'\t', is_blank);
            (end > at).then_some((78, end))
        }
    }
}

/// The comment at a slash: from `//` up to LF, or from `/*` to the first `*/` behind it.
fn comment(src: &[u8], at: usize) -> Option<Match> {
    match byte(src, at + 1)? {
        b'/' => Some((77, run(src, at + 2, |b| b != b'\n'))),
        b'*' => {
            let close = src[at + 2..].windows(2).position(|pair| pair == b"*/")?;
            Some((77, at + 2 + close + 2))
        }
        _ => None,
    }
}

/// The place behind the items that a string or regexp has from a place on, the closing byte being none of them.
fn items(src: &[u8], mut at: usize, close: u8, line_feeds: bool) -> usize {
    while let Some(b) = byte(src, at) {
        match b {
            b'\\' if byte(src, at + 1).is_some_and(|b| b != b'\n') => at += 2,
            b'\\' => break,
            b'\n' if !line_feeds => break,
            _ if b == close => break,
            _ => at += 1,
        }
    }
    at
}

/// The string at a quote: with three quotes at each end if it can be, as that is longer.
fn string(src: &[u8], at: usize) -> Option<Match> {
    let quotes: &[u8] = b"\"\"\"";
    if src[at..].starts_with(quotes) {
        let close = items(src, at + 3, b'"', true);
        if src[close..].starts_with(quotes) {
            return Some((75, close + 3));
        }
    }
    let close = items(src, at + 1, b'"', false);
    (byte(src, close) == Some(b'"')).then_some((75, close + 1))
}

/// The regexp at a slash. Its first item is as the others, but no `*`; and there must be one.
fn regexp(src: &[u8], at: usize) -> Option<Match> {
    if matches!(byte(src, at + 1)?, b'*' | b'/') {
        return None;
    }
    let close = items(src, at + 1, b'/', false);
    if close == at + 1 || byte(src, close) != Some(b'/') {
        return None;
    }
    let letters = run(src, close + 1, |b| b.is_ascii_alphabetic()) - (close + 1);
    Some((76, close + 1 + letters.min(2)))
}

/// The integer at a decimal digit that begins with `0`, a letter and a digit; behind that digit `_` may be allowed too.
fn integer_with(src: &[u8], at: usize, letter: u8, is_digit: fn(u8) -> bool, separators: bool) -> Option<Match> {
    let begins = src[at] == b'0' && byte(src, at + 1) == Some(letter) && byte(src, at + 2).is_some_and(is_digit);
    begins.then(|| (74, run(src, at + 3, |b| is_digit(b) || separators && b == b'_')))
}

/// The integer with `0x` or `0o` at a decimal digit.
fn prefixed_integer(src: &[u8], at: usize, separators: bool) -> Option<Match> {
    integer_with(src, at, b'x', is_hexadecimal, separators).or_else(|| integer_with(src, at, b'o', is_octal, separators))
}

/// The integer or float at a decimal digit.
fn number(src: &[u8], at: usize) -> Match {
    if let Some(integer) = prefixed_integer(src, at, true) {
        return integer;
    }
    let behind_digits = |from: usize| run(src, from, |b| b.is_ascii_digit() || b == b'_');
    let end = behind_digits(at);
    let fraction = behind_digits(end + 1);
    if byte(src, end) == Some(b'.') && fraction > end + 1 {
        return (73, fraction);
    }
    let suffix = src[end..].starts_with(b"KB") || src[end..].starts_with(b"MB");
    (74, if suffix { end + 2 } else { end })
}

/// The keyword or IDENT at a letter or `_`.
fn word(src: &[u8], at: usize) -> Match {
    let end = word_tail(src, at);
    let keyword = KEYWORDS.binary_search(&&src[at..end]);
    (keyword.map_or(72, |k| k as u32 + 1), end)
}

/// The operator or bracket at a place.
fn operator(src: &[u8], at: usize) -> Option<Match> {
    let kind = match (src[at], byte(src, at + 1)) {
        (b'<', Some(b'<')) => return Some((41, at + 2)),
        (b'>', Some(b'>')) => return Some((42, at + 2)),
        (b'=', Some(b'=')) => return Some((43, at + 2)),
        (b'!', Some(b'=')) => return Some((44, at + 2)),
        (b'<', Some(b'=')) => return Some((45, at + 2)),
        (b'>', Some(b'=')) => return Some((46, at + 2)),
        (b'<', _) => 47,
        (b'>', _) => 48,
        (b'&', _) => 49,
        (b'*', _) => 50,
        (b'\\', _) => 51,
        (b':', _) => 52,
        (b',', _) => 53,
        (b'.', _) => 54,
        (b'=', _) => 55,
        (b'+', _) => 56,
        (b'-', _) => 57,
        (b'%', _) => 58,
        (b'|', _) => 59,
        (b'^', _) => 60,
        (b'~', _) => 61,
        (b'{', _) => 62,
        (b'}', _) => 63,
        (b'(', _) => 64,
        (b')', _) => 65,
        (b'[', _) => 66,
        (b']', _) => 67,
        _ => return None,
    };
    Some((kind, at + 1))
}

/// The longest match of normal mode at a place.
fn normal(src: &[u8], at: usize) -> Option<Match> {
    match src[at] {
        b'a'..=b'z' | b'A'..=b'Z' | b'_' => Some(word(src, at)),
        b'0'..=b'9' => Some(number(src, at)),
        b'$' => Some((68, word_tail(src, at + 1))),
        b'#' => Some((69, word_tail(src, at + 1))),
        b'@' => Some((70, word_tail(src, at + 1))),
        b'!' if byte(src, at + 1) != Some(b'=') => Some((71, word_tail(src, at + 1))),
        b'"' => string(src, at),
        b'/' => comment(src, at).or_else(|| regexp(src, at)),
        _ => operator(src, at).or_else(|| blanks_or_newline(src, at)),
    }
}

/// The hex byte at a place.
fn hex_byte(src: &[u8], at: usize) -> Option<Match> {
    let first = if src[at] == b'~' { at + 1 } else { at };
    let nibble = |at: usize| byte(src, at).is_some_and(|b| b == b'?' || b.is_ascii_hexdigit());
    (nibble(first) && nibble(first + 1)).then_some((80, first + 2))
}

/// Whether the source has well-formed characters only between two places.
fn well_formed(src: &[u8], mut at: usize, end: usize) -> bool {
    while at < end {
        match character(src, at) {
            Some((length, _)) => at += length,
            None => return false,
        }
    }
    true
}

/// The longest match of pattern mode at a place.
fn pattern(src: &[u8], at: usize) -> Option<Match> {
    match src[at] {
        b'|' | b'(' | b')' | b'[' | b']' => operator(src, at),
        b'/' => comment(src, at).filter(|(_, end)| src[at + 1] == b'/' || well_formed(src, at, *end)),
        _ => hex_byte(src, at).or_else(|| blanks_or_newline(src, at)),
    }
}

/// The longest match of jump mode at a place.
fn jump(src: &[u8], at: usize) -> Option<Match> {
    match src[at] {
        b'-' => operator(src, at),
        b'0'..=b'9' => prefixed_integer(src, at, false).or_else(|| Some((74, run(src, at, |b| b.is_ascii_digit())))),
        _ => blanks_or_newline(src, at),
    }
}

/// What is at a place where normal mode finds nothing.
fn unmatched(src: &[u8], at: usize) -> Match {
    if character(src, at).is_none() {
        return (81, at + 1);
    }
    let end = run_of_characters(src, at, |b| !is_white_space(u32::from(b)), |c| !is_white_space(c));
    (82, end.max(at + 1))
}

/// The token at a place in a mode, and the mode reached; none exactly at the end.
pub fn scan(src: &[u8], at: usize, mode: Mode) -> Option<(Tok, Mode)> {
    if at >= src.len() {
        return None;
    }
    let found = match mode {
        Mode::Normal => Some(normal(src, at).unwrap_or_else(|| unmatched(src, at))),
        Mode::Pattern => pattern(src, at),
        Mode::Jump => jump(src, at),
    };
    match (found, mode) {
        (Some((kind, end)), _) => Some((Tok { kind, start: at as u32, end: end as u32 }, mode)),
        (None, Mode::Jump) => scan(src, at, Mode::Pattern),
        (None, _) => scan(src, at, Mode::Normal),
    }
}

/// The tokens of a source from a place on, added to a list.
pub fn scan_all(src: &[u8], at: usize, mode: Mode, list: &mut Vec<Tok>) {
    let (mut at, mut mode) = (at, mode);
    while let Some((token, reached)) = scan(src, at, mode) {
        list.push(token);
        (at, mode) = (token.end as usize, reached);
    }
}

/// A number in decimal and a byte behind it, added to a text.
fn put(text: &mut Vec<u8>, mut number: usize, behind: u8) {
    let mut digits = [0; 20];
    let mut first = digits.len();
    loop {
        first -= 1;
        digits[first] = b'0' + (number % 10) as u8;
        number /= 10;
        if number == 0 {
            break;
        }
    }
    text.extend_from_slice(&digits[first..]);
    text.push(behind);
}

/// Document 01's listing of a source that is not too long, added to a text.
pub fn listing(src: &[u8], text: &mut Vec<u8>) {
    let mut tokens = Vec::new();
    scan_all(src, 0, Mode::Normal, &mut tokens);
    text.extend_from_slice(b"tokens ");
    put(text, tokens.len(), b'\n');
    for token in tokens {
        put(text, token.kind as usize, b' ');
        put(text, token.start as usize, b' ');
        put(text, token.end as usize, b'\n');
    }
}

/// Prints the listing of standard input.
#[allow(dead_code)]
fn main() {
    use std::io::{Read, Write};
    let mut src = Vec::new();
    std::io::stdin().lock().take(65_536).read_to_end(&mut src).expect("standard input");
    let mut text = Vec::new();
    match src.len() {
        0..=65_535 => listing(&src, &mut text),
        _ => text.extend_from_slice(b"refused 1\n"),
    }
    std::io::stdout().write_all(&text).expect("standard output");
}
