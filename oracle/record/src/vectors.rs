//! Random sources of pieces that matter to the rules.
use crate::random::Random;
use crate::tokens::record;
use reading::plain::{DIGITS, KEYWORDS};

/// Bytes that start or continue many rules.
const BYTES: &[u8; 21] = b"axoKB_08.\"\\/*!=~?- \r\n";

/// Operators, brackets, parts of numbers, comments and strings, blanks, digits, and bytes that no rule or no character has.
#[rustfmt::skip]
const PIECES: &[&[u8]] = &[
    b"KB", b"MB", b"0x", b"0o", b"/*", b"*/", b"//", b"\"\"\"", b"\\\"", b"\\\n", b"rule", b"base64", b"base64wide", b"xor", b"with",
    b"\xC2\xA0", b"\xE2\x80\x80", b"\xE2\x80\x8A", b"\xE2\x80\x8B", b"\xE2\x80\xAF", b"\xE2\x81\x9F", b"\xE3\x80\x80", b"\xC2\x85",
    b"\xE2\x80\xA8", b"\xE1\x9A\x80", b"\xF0\x9D\x9F\x8E", b"\xF0\x90\xB5\x80", b"\xED\xA0\x80", b"\xC0\x80", b"\xF4\x90\x80\x80",
    b"\xEF\xBC\x90", b"\xE0\xA5\xA6", b"$", b"#", b"@", b"<<", b">>", b">=", b"<=", b"<", b">", b"&", b"%", b"^", b"+", b":", b",",
    b"{", b"}", b"[", b"]", b"(", b"|", b")", b"\r\n", b"\t", b";", b"\x0B", b"\x0C", b"\x00", b"\x7F", b"\xFF", b"in", b"include",
    b"iequals", b"4", b"fF", b"??",
];

/// The digits that Unicode 17.0 has beyond those of 16.0, which are no digits to the rules, and where they stand among them.
const NEW_DIGITS: (usize, u32) = (58, 0x11DE0);

/// Prints records of random sources.
pub fn write(count: u64, random: &mut Random) {
    for _ in 0..count {
        let source = source(random);
        let mode = random.one_of(&["normal", "normal", "pattern", "jump"]);
        println!("{}", record(&source, mode));
    }
}

/// A source of 1 to 14 pieces.
fn source(random: &mut Random) -> Vec<u8> {
    let mut source = Vec::new();
    for _ in 0..1 + random.below(14) {
        match random.below(8) {
            0 | 1 => source.extend_from_slice(random.one_of(PIECES)),
            2 => source.extend_from_slice(random.one_of(&KEYWORDS)),
            3 => source.extend_from_slice(format!("a{}", digit(random)).as_bytes()),
            4 => source.push(b' '),
            _ => source.push(random.one_of(BYTES)),
        }
    }
    source
}

/// A decimal digit of any script.
fn digit(random: &mut Random) -> char {
    let (place, new) = NEW_DIGITS;
    let zero = match random.below(DIGITS.len() + 1) {
        k if k < place => DIGITS[k],
        k if k == place => new,
        k => DIGITS[k - 1],
    };
    char::from_u32(zero + random.below(10) as u32).expect("a digit")
}
