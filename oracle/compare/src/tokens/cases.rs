//! Document 01's marked cases on tokens.
use super::comparison::Comparison;
use super::findings::{hex, list};
use crate::row::Row;
use reading::patterns::Patterns;
use reading::plain::{Mode, Mode::*, Tok};

/// Mode, source, and kind, start and end of each token.
type Case = (Mode, &'static [u8], &'static [(u32, u32, u32)]);

/// The cases, in document 01's order; the last two are of its listing and of its window.
const CASES: [Case; 20] = [
    (Normal, b"", &[]),
    (Normal, b"base64w", &[(72, 0, 7)]),
    (Normal, b"base64wide", &[(7, 0, 10)]),
    (Normal, b"1._", &[(73, 0, 3)]),
    (Normal, b"1.", &[(74, 0, 1), (54, 1, 2)]),
    (Normal, b"0x_1", &[(74, 0, 1), (72, 1, 4)]),
    (Normal, b"\"\"\"", &[(75, 0, 2), (82, 2, 3)]),
    (Normal, b"\"a b", &[(82, 0, 2), (78, 2, 3), (72, 3, 4)]),
    (Normal, b"!a=", &[(71, 0, 2), (55, 2, 3)]),
    (Normal, b"!=", &[(44, 0, 2)]),
    (Normal, b"/a/isx", &[(76, 0, 5), (72, 5, 6)]),
    (Normal, b"\xFF\x41", &[(81, 0, 1), (72, 1, 2)]),
    (Normal, b"\xE3\x80\x80", &[(82, 0, 1), (81, 1, 2), (81, 2, 3)]),
    (Normal, b"\x61\xD9\xA3", &[(72, 0, 3)]),
    (Pattern, b"abc", &[(80, 0, 2), (72, 2, 3)]),
    (Pattern, b"\x2F\x2A\xFF\x2A\x2F", &[(77, 0, 5)]),
    (Jump, b"4]", &[(74, 0, 1), (67, 1, 2)]),
    (Normal, b";rule", &[(82, 0, 5)]),
    (Normal, b"x=1KB\n", &[(72, 0, 1), (55, 1, 2), (74, 2, 5), (79, 5, 6)]),
    (Normal, b"a b c", &[(72, 0, 1), (78, 1, 2), (72, 2, 3), (78, 3, 4), (72, 4, 5)]),
];

/// The cases through the Rust, the port and the plain reading.
pub fn cases() -> Row {
    let patterns = Patterns::read();
    let mut comparison = Comparison::new(&patterns);
    let mut wrong = 0;
    for (mode, src, tokens) in CASES {
        comparison.compare(src, mode, &[]);
        let tokens: Vec<Tok> = tokens.iter().map(|&(kind, start, end)| Tok { kind, start, end }).collect();
        if comparison.port != tokens {
            wrong += 1;
            println!("DIFFERS, {} ({mode:?} mode)\n    document 01: {}\n    port: {}", hex(src), list(&tokens), list(&comparison.port));
        }
    }
    comparison.findings.print();
    let row = comparison.findings.row("document 01's marked cases".to_string());
    Row { differ: row.differ + wrong, ..row }
}
