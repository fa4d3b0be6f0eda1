// SPDX-License-Identifier: BSD-3-Clause
//! The iterator over tokens: in pieces as in one go, from every place, in every mode.
use warpthistle::{Kind, Mode, Refusal, Token, TokenStream, Tokens, SOURCE_LIMIT};

const MODES: [Mode; 3] = [Mode::Normal, Mode::HexPattern, Mode::HexJump];

/// Sources with tokens of all modes; one of them has more tokens than are read at once.
fn sources() -> Vec<Vec<u8>> {
    let rule = b"rule a : b { strings: $a = { 9C ?? [2-4] ~(A0|?B) // x\n /* y */ } $b = \"s\" condition: $a and #b > 2KB }\n";
    let many: Vec<u8> = rule.iter().copied().cycle().take(2000).collect();
    let mixed = b"10 a0 [4-] 0x1F ]~??|( \xFF \xE3\x80\x80 /*\xFF*/ 12KB \"open\n'".to_vec();
    vec![Vec::new(), b"a".to_vec(), rule.to_vec(), many, mixed, vec![b'~'; 200], b"01 ".repeat(200)]
}

/// The tokens of a stream that was switched to a mode at its start.
fn by_stream(src: &[u8], mode: Mode) -> Vec<Token> {
    let mut stream = TokenStream::new(src).unwrap();
    match mode {
        Mode::Normal => {}
        Mode::HexPattern => stream.enter_hex_pattern_mode(),
        Mode::HexJump => stream.enter_hex_jump_mode(),
    }
    std::iter::from_fn(|| stream.next_token()).collect()
}

#[test]
fn as_the_stream_gives_them() {
    for src in sources() {
        assert_eq!(Tokens::new(&src).unwrap().collect::<Vec<_>>(), by_stream(&src, Mode::Normal));
        for mode in MODES {
            assert_eq!(Tokens::at(&src, 0, mode).unwrap().collect::<Vec<_>>(), by_stream(&src, mode));
        }
    }
}

#[test]
fn going_on_behind_each_token() {
    for src in sources().iter().filter(|src| src.len() < 1000) {
        for mode in MODES {
            let mut tokens = Tokens::at(src, 0, mode).unwrap();
            assert_eq!((tokens.place(), tokens.mode()), (0, mode));
            loop {
                let rest: Vec<_> = tokens.clone().collect();
                let anew: Vec<_> = Tokens::at(src, tokens.place(), tokens.mode()).unwrap().collect();
                assert_eq!(rest, anew);
                let (least, most) = tokens.size_hint();
                assert!(least <= rest.len() && rest.len() <= most.unwrap());
                let Some(token) = tokens.next() else { break };
                assert_eq!(tokens.place(), token.span().end);
            }
            assert_eq!(tokens.place(), src.len());
            assert_eq!(tokens.next(), None);
        }
    }
}

#[test]
fn the_mode_behind_a_token() {
    let mut tokens = Tokens::at(b"4]10 x", 0, Mode::HexJump).unwrap();
    let modes: Vec<_> = std::iter::from_fn(|| tokens.next().map(|token| (token.kind, tokens.mode()))).collect();
    let expected = [
        (Kind::IntegerLit, Mode::HexJump),
        (Kind::RBracket, Mode::HexPattern),
        (Kind::HexByte, Mode::HexPattern),
        (Kind::Whitespace, Mode::HexPattern),
        (Kind::Ident, Mode::Normal),
    ];
    assert_eq!(modes, expected);
}

#[test]
fn after_an_edit() {
    // the tokens before the edit stay, those behind it are read again
    let old = b"rule a { condition: true }";
    let new = b"rule a { condition: false }";
    let mut tokens = Tokens::new(old).unwrap();
    let mut kept: Vec<_> = tokens.by_ref().take_while(|token| token.kind != Kind::Colon).collect();
    kept.push(Tokens::at(old, tokens.place() - 1, Mode::Normal).unwrap().next().unwrap());
    kept.extend(Tokens::at(new, tokens.place(), tokens.mode()).unwrap());
    assert_eq!(kept, Tokens::new(new).unwrap().collect::<Vec<_>>());
}

#[test]
fn refusals() {
    let most = vec![b'~'; SOURCE_LIMIT];
    assert_eq!(Tokens::new(&most).unwrap().count(), SOURCE_LIMIT);
    assert_eq!(Tokens::at(&most, SOURCE_LIMIT, Mode::HexJump).unwrap().next(), None);
    let over = vec![b'~'; SOURCE_LIMIT + 1];
    assert_eq!(Tokens::new(&over).err(), Some(Refusal::SourceTooLong));
    for place in [4, 65_536, u32::MAX as usize, u32::MAX as usize + 1, usize::MAX] {
        assert_eq!(Tokens::at(b"a b", place, Mode::Normal).err(), Some(Refusal::NotAsOpened));
    }
    assert_eq!(Tokens::at(b"a b", 3, Mode::Normal).unwrap().next(), None);
    assert_eq!(Tokens::at(b"", 0, Mode::HexPattern).unwrap().mode(), Mode::HexPattern);
}

#[test]
fn what_debug_writes() {
    let mut tokens = Tokens::at(b"a b", 1, Mode::HexPattern).unwrap();
    tokens.next();
    assert_eq!(format!("{tokens:?}"), "Tokens { source_len: 3, place: 2, mode: HexPattern }");
    assert_eq!(tokens.source(), b"a b");
}
