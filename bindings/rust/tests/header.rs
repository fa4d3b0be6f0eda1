// SPDX-License-Identifier: BSD-3-Clause
//! The crate's names and numbers are those of the C header, and its version is the library's.
use warpthistle::{library_version, Kind, Mode, Refusal, BOOKMARK_LIMIT, EVENT_BOOKMARK_LIMIT, SOURCE_LIMIT, VERSION};

const HEADER: &str = include_str!("../../../include/warpthistle.h");

/// The numbers of a family of the header's names, each behind its name without the prefix.
fn numbers(prefix: &str) -> Vec<(&'static str, u32)> {
    let names = HEADER.split([',', '{', '\n']).map(str::trim).filter_map(|text| text.strip_prefix(prefix)?.split_once(" = "));
    names.map(|(name, number)| (name, number.split(' ').next().unwrap().parse().unwrap())).collect()
}

/// The number that the header defines a name as.
fn defined(name: &str) -> u32 {
    let line = HEADER.lines().find(|line| line.split(' ').nth(1) == Some(name)).unwrap();
    line.split_whitespace().nth(2).unwrap().trim_end_matches('u').parse().unwrap()
}

#[test]
fn kinds() {
    let kinds: Vec<_> = Kind::ALL.iter().map(|kind| (kind.name(), u32::from(kind.number()))).collect();
    assert_eq!(kinds, numbers("WARPTHISTLE_KIND_"));
    assert_eq!(kinds.len(), 82);
    for kind in Kind::ALL {
        assert_eq!(Kind::from_number(kind.number()), Some(*kind));
        assert_eq!(u16::from(*kind), kind.number());
        assert_eq!(kind.to_string(), kind.name());
    }
    for number in [0, 83, u16::MAX] {
        assert_eq!(Kind::from_number(number), None);
    }
    assert_eq!(format!("[{:>10}]", Kind::Ident), "[     IDENT]");
}

#[test]
fn spellings() {
    for kind in Kind::ALL {
        assert_eq!(kind.spelling().is_some(), kind.number() <= 67);
        let Some(spelling) = kind.spelling() else { continue };
        let tokens: Vec<_> = warpthistle::Tokens::new(spelling.as_bytes()).unwrap().collect();
        assert_eq!(tokens.len(), 1);
        assert_eq!((tokens[0].kind, tokens[0].text(spelling.as_bytes())), (*kind, spelling.as_bytes()));
        assert_eq!(kind.is_keyword(), spelling.as_bytes()[0].is_ascii_lowercase());
    }
    let trivia: Vec<_> = Kind::ALL.iter().filter(|kind| kind.is_trivia()).collect();
    assert_eq!(trivia, [&Kind::Comment, &Kind::Whitespace, &Kind::Newline]);
}

#[test]
fn refusals() {
    let refusals: Vec<_> = Refusal::ALL.iter().map(|refusal| (refusal_name(*refusal), refusal.number())).collect();
    let named: Vec<_> = numbers("WARPTHISTLE_REFUSAL_").iter().map(|(name, number)| (name.to_string(), *number)).collect();
    assert_eq!(refusals, named);
    for number in 0..200 {
        assert_eq!(Refusal::from_number(number).map(Refusal::number), named.iter().find(|(_, n)| *n == number).map(|(_, n)| *n));
    }
    let error: Box<dyn std::error::Error> = Refusal::NotLive.into();
    assert_eq!(error.to_string(), "no such bookmark is live (refusal 4)");
}

/// A refusal's name as the header has it.
fn refusal_name(refusal: Refusal) -> String {
    let mut name = String::new();
    for letter in format!("{refusal:?}").chars() {
        if letter.is_uppercase() && !name.is_empty() {
            name.push('_');
        }
        name.push(letter.to_ascii_uppercase());
    }
    name
}

#[test]
fn modes() {
    let modes = [("NORMAL", Mode::Normal), ("HEX_PATTERN", Mode::HexPattern), ("HEX_JUMP", Mode::HexJump)];
    assert_eq!(modes.map(|(name, mode)| (name, mode.number())), numbers("WARPTHISTLE_MODE_")[..]);
    assert_eq!(Mode::default(), Mode::Normal);
}

#[test]
fn versions() {
    assert_eq!(VERSION, defined("WARPTHISTLE_VERSION"));
    let parts = ["MAJOR", "MINOR", "PATCH"].map(|part| defined(&format!("WARPTHISTLE_VERSION_{part}")));
    assert_eq!(VERSION, 1_000_000 * parts[0] + 1_000 * parts[1] + parts[2]);
    assert_eq!(env!("CARGO_PKG_VERSION"), parts.map(|part| part.to_string()).join("."));
    assert_eq!(library_version(), VERSION);
}

#[test]
fn limits() {
    assert_eq!(SOURCE_LIMIT, defined("WARPTHISTLE_SOURCE_LIMIT") as usize);
    assert!(HEADER.contains(&format!("{BOOKMARK_LIMIT} bookmarks of a window are live, or 65,535 of an event stream")));
    assert_eq!(EVENT_BOOKMARK_LIMIT, 65_535);
}
