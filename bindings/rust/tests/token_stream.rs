// SPDX-License-Identifier: BSD-3-Clause
//! The token stream, call by call.
use warpthistle::{Bookmark, Kind, Refusal, TightTokenStream, Token, TokenStream, BOOKMARK_LIMIT, SOURCE_LIMIT};

/// A token as its kind's number, start and end.
fn numbers(token: Token) -> (u16, u32, u32) {
    (token.kind.number(), token.start, token.end)
}

/// The tokens that a stream gives from here on.
fn rest(stream: &mut TokenStream) -> Vec<(u16, u32, u32)> {
    std::iter::from_fn(|| stream.next_token()).map(numbers).collect()
}

/// All tokens of a source in normal mode.
fn all(src: &[u8]) -> Vec<(u16, u32, u32)> {
    rest(&mut TokenStream::new(src).unwrap())
}

#[test]
fn no_token_is_lost() {
    // back to the earliest bookmark, which is removed while a later one lives
    let mut stream = TokenStream::new(b"a b c").unwrap();
    let zero = stream.bookmark().unwrap();
    assert_eq!(stream.next_token().map(numbers), Some((72, 0, 1)));
    assert_eq!(stream.next_token().map(numbers), Some((78, 1, 2)));
    let two = stream.bookmark().unwrap();
    assert_eq!((zero.index(), two.index()), (0, 2));
    stream.restore_bookmark(&zero).unwrap();
    stream.remove_bookmark(zero).unwrap();
    assert_eq!(stream.next_token().map(numbers), Some((72, 0, 1)));
    assert_eq!(stream.next_token().map(numbers), Some((78, 1, 2)));
    assert_eq!(stream.current_token_index(), 2);
    assert_eq!(rest(&mut stream), [(72, 2, 3), (78, 3, 4), (72, 4, 5)]);
    stream.restore_bookmark(&two).unwrap();
    stream.remove_bookmark(two).unwrap();
    assert_eq!(rest(&mut stream), [(72, 2, 3), (78, 3, 4), (72, 4, 5)]);
}

#[test]
fn listing_of_document_01() {
    assert_eq!(all(b"x=1KB\n"), [(72, 0, 1), (55, 1, 2), (74, 2, 5), (79, 5, 6)]);
}

#[test]
fn marked_cases() {
    assert_eq!(all(b"base64w"), [(72, 0, 7)]);
    assert_eq!(all(b"base64wide"), [(7, 0, 10)]);
    assert_eq!(all(b"1._"), [(73, 0, 3)]);
    assert_eq!(all(b"1."), [(74, 0, 1), (54, 1, 2)]);
    assert_eq!(all(b"0x_1"), [(74, 0, 1), (72, 1, 4)]);
    assert_eq!(all(b"\"\"\""), [(75, 0, 2), (82, 2, 3)]);
    assert_eq!(all(b"\"a b"), [(82, 0, 2), (78, 2, 3), (72, 3, 4)]);
    assert_eq!(all(b"!a="), [(71, 0, 2), (55, 2, 3)]);
    assert_eq!(all(b"!="), [(44, 0, 2)]);
    assert_eq!(all(b"/a/isx"), [(76, 0, 5), (72, 5, 6)]);
    assert_eq!(all(b";rule"), [(82, 0, 5)]);
    assert_eq!(all("a\u{663}".as_bytes()), [(72, 0, 3)]);
}

#[test]
fn ill_formed_bytes_are_tokens() {
    assert_eq!(all(b"\xFFA"), [(81, 0, 1), (72, 1, 2)]);
    assert_eq!(all("\u{3000}".as_bytes()), [(82, 0, 1), (81, 1, 2), (81, 2, 3)]);
    // every byte by itself, and behind a name: the tokens have every byte once
    for byte in 0..=255 {
        for src in [&[byte][..], &[b'a', byte], &[byte, b'a', byte]] {
            let mut end = 0;
            for (_, start, next) in all(src) {
                assert!(start == end && start < next);
                end = next;
            }
            assert_eq!(end as usize, src.len());
        }
    }
}

#[test]
fn an_empty_source() {
    let mut stream = TokenStream::new(b"").unwrap();
    assert!(!stream.has_more());
    assert_eq!(stream.next_token(), None);
    assert_eq!(stream.peek_token(0), None);
    assert_eq!(stream.peek_token(usize::MAX), None);
    assert_eq!(stream.current_token_index(), 0);
    let start = stream.bookmark().unwrap();
    stream.restore_bookmark(&start).unwrap();
    stream.remove_bookmark(start).unwrap();
    stream.enter_hex_pattern_mode();
    stream.enter_hex_jump_mode();
    assert_eq!(stream.next_token(), None);
}

#[test]
fn the_longest_source() {
    let most = vec![b'='; SOURCE_LIMIT];
    let mut stream = TokenStream::new(&most).unwrap();
    // with a bookmark at the start every token is kept
    let start = stream.bookmark().unwrap();
    assert_eq!(stream.peek_token(SOURCE_LIMIT / 2).map(numbers), Some((55, 65_534, 65_535)));
    let tokens = rest(&mut stream);
    assert_eq!(tokens.last(), Some(&(55, 65_534, 65_535)));
    stream.restore_bookmark(&start).unwrap();
    assert_eq!(rest(&mut stream), tokens);

    // as many tokens as bytes
    let most = vec![b'~'; SOURCE_LIMIT];
    let mut stream = TokenStream::new(&most).unwrap();
    let start = stream.bookmark().unwrap();
    assert_eq!(stream.peek_token(SOURCE_LIMIT - 1).map(numbers), Some((61, 65_534, 65_535)));
    assert_eq!(stream.peek_token(SOURCE_LIMIT), None);
    assert_eq!(rest(&mut stream).len(), SOURCE_LIMIT);
    assert_eq!(stream.current_token_index(), SOURCE_LIMIT);
    stream.restore_bookmark(&start).unwrap();
    assert_eq!(stream.next_token().map(numbers), Some((61, 0, 1)));

    let over = vec![b'~'; SOURCE_LIMIT + 1];
    assert_eq!(TokenStream::new(&over).err(), Some(Refusal::SourceTooLong));
    assert_eq!(TokenStream::with_slots(&over, 1).err(), Some(Refusal::SourceTooLong));
}

#[test]
fn modes() {
    // pattern mode falls back to normal mode
    let mut stream = TokenStream::new(b"abc").unwrap();
    stream.enter_hex_pattern_mode();
    assert_eq!(rest(&mut stream), [(80, 0, 2), (72, 2, 3)]);
    // jump mode to pattern mode
    let mut stream = TokenStream::new(b"4]10").unwrap();
    stream.enter_hex_jump_mode();
    assert_eq!(rest(&mut stream), [(74, 0, 1), (67, 1, 2), (80, 2, 4)]);
    // a comment of bytes that are no characters is one of normal mode
    let mut stream = TokenStream::new(b"/*\xFF*/ab").unwrap();
    stream.enter_hex_pattern_mode();
    assert_eq!(rest(&mut stream), [(77, 0, 5), (72, 5, 7)]);
    // the switch acts behind the last token that was looked at
    let mut stream = TokenStream::new(b"a0 b1 c2").unwrap();
    let start = stream.bookmark().unwrap();
    assert_eq!(stream.peek_token(1).map(numbers), Some((78, 2, 3)));
    stream.enter_hex_pattern_mode();
    let tokens = [(72, 0, 2), (78, 2, 3), (80, 3, 5), (78, 5, 6), (80, 6, 8)];
    assert_eq!(rest(&mut stream), tokens);
    stream.restore_bookmark(&start).unwrap();
    assert_eq!(rest(&mut stream), tokens);
}

#[test]
fn looking_ahead_changes_nothing() {
    let src = b"rule a { strings: $x = { 01 02 } condition: $x }";
    let tokens = all(src);
    let mut stream = TokenStream::new(src).unwrap();
    for (index, token) in tokens.iter().enumerate() {
        assert_eq!(stream.current_token_index(), index);
        for n in [0, 1, 7, tokens.len(), usize::MAX] {
            assert_eq!(stream.peek_token(n).map(numbers), index.checked_add(n).and_then(|at| tokens.get(at)).copied());
        }
        assert!(stream.has_more());
        assert_eq!(stream.next_token().map(numbers), Some(*token));
    }
    assert!(!stream.has_more());
    assert_eq!(stream.next_token(), None);
    assert_eq!(stream.current_token_index(), tokens.len());
}

#[test]
fn bookmarks_that_are_not_live() {
    let mut stream = TokenStream::new(b"a b c").unwrap();
    assert_eq!(stream.restore_bookmark(&Bookmark::new(0)), Err(Refusal::NotLive));
    assert_eq!(stream.remove_bookmark(Bookmark::new(0)), Err(Refusal::NotLive));
    let first = stream.bookmark().unwrap();
    stream.next_token();
    for index in [1, 65_535, u32::MAX as usize, u32::MAX as usize + 1, usize::MAX] {
        assert_eq!(stream.restore_bookmark(&Bookmark::new(index)), Err(Refusal::NotLive));
        assert_eq!(stream.remove_bookmark(Bookmark::new(index)), Err(Refusal::NotLive));
    }
    assert_eq!(stream.current_token_index(), 1);
    // two at one token are two
    stream.restore_bookmark(&first).unwrap();
    let second = stream.bookmark().unwrap();
    assert_eq!(first, second);
    stream.remove_bookmark(first).unwrap();
    stream.restore_bookmark(&second).unwrap();
    stream.remove_bookmark(second).unwrap();
    assert_eq!(stream.remove_bookmark(second), Err(Refusal::NotLive));
}

#[test]
fn as_many_bookmarks_as_can_be() {
    let mut stream = TokenStream::new(b"a b c").unwrap();
    for _ in 0..BOOKMARK_LIMIT {
        let _ = stream.bookmark().unwrap();
    }
    assert_eq!(stream.bookmark(), Err(Refusal::TooManyBookmarks));
    stream.remove_bookmark(Bookmark::new(0)).unwrap();
    assert_eq!(stream.bookmark(), Ok(Bookmark::new(0)));
    assert_eq!(rest(&mut stream).len(), 5);
}

#[test]
fn a_tight_stream() {
    let mut stream = TokenStream::with_slots(b"a b", 1).unwrap();
    assert_eq!(stream.peek_token(0).unwrap().map(numbers), Some((72, 0, 1)));
    assert_eq!(stream.peek_token(1), Err(Refusal::WindowFull));
    assert_eq!(stream.has_more(), Ok(true));
    let first = stream.bookmark().unwrap();
    assert_eq!(stream.next_token().unwrap().map(numbers), Some((72, 0, 1)));
    // the bookmark keeps the first token
    assert_eq!(stream.next_token(), Err(Refusal::WindowFull));
    assert_eq!(stream.has_more(), Err(Refusal::WindowFull));
    assert_eq!(stream.current_token_index(), 1);
    stream.remove_bookmark(first).unwrap();
    assert_eq!(stream.next_token().unwrap().map(numbers), Some((78, 1, 2)));
    stream.enter_hex_jump_mode();
    assert_eq!(stream.next_token().unwrap().map(numbers), Some((72, 2, 3)));
    assert_eq!(stream.next_token(), Ok(None));
    assert_eq!(stream.source(), b"a b");

    // no slot at all, and more slots than memory has
    let mut stream = TokenStream::with_slots(b"a b", 0).unwrap();
    assert_eq!(stream.next_token(), Err(Refusal::WindowFull));
    let mut stream = TokenStream::with_slots(b"a b", usize::MAX).unwrap();
    assert_eq!(stream.peek_token(2).unwrap().map(numbers), Some((72, 2, 3)));
    let mut stream = TokenStream::with_slots(b"", 0).unwrap();
    assert_eq!(stream.next_token(), Ok(None));
}

#[test]
fn a_clone_goes_on_by_itself() {
    let mut stream = TokenStream::new(b"a b c").unwrap();
    let start = stream.bookmark().unwrap();
    stream.next_token();
    let mut other = stream.clone();
    other.enter_hex_pattern_mode();
    other.remove_bookmark(start).unwrap();
    assert_eq!(rest(&mut other).len(), 4);
    stream.restore_bookmark(&start).unwrap();
    assert_eq!(rest(&mut stream), all(b"a b c"));
}

#[test]
fn what_debug_writes() {
    let mut stream = TokenStream::new(b"a b c").unwrap();
    stream.next_token();
    assert_eq!(format!("{stream:?}"), "TokenStream { source_len: 5, slots: 5, current_token_index: 1 }");
    let stream = TokenStream::with_slots(b"a b c", 2).unwrap();
    assert_eq!(format!("{stream:?}"), "TightTokenStream { source_len: 5, slots: 2, current_token_index: 0 }");
}

#[test]
fn threads() {
    fn both<T: Send + Sync>() {}
    both::<TokenStream>();
    both::<TightTokenStream>();
    both::<warpthistle::Tokens>();
    both::<warpthistle::EventStream>();
    both::<Refusal>();
    let src = b"a b c".to_vec();
    let mut stream = TokenStream::new(&src).unwrap();
    stream.next_token();
    std::thread::scope(|scope| {
        scope.spawn(|| assert_eq!(rest(&mut stream).len(), 4));
    });
    assert_eq!(stream.next_token(), None);
}

/// A model: all tokens at once, as nothing switches the mode, and what is live.
struct Model {
    tokens: Vec<Token>,
    current: usize,
    fetched: usize,
    live: Vec<usize>,
    slots: usize,
}

impl Model {
    /// The token at an index, where the tokens up to it fit.
    fn look(&mut self, index: usize) -> Result<Option<Token>, Refusal> {
        let upto = self.fetched.max(index.saturating_add(1).min(self.tokens.len()));
        let low = self.live.iter().copied().chain([self.current]).min().unwrap();
        if upto > self.fetched && upto - low > self.slots {
            return Err(Refusal::WindowFull);
        }
        self.fetched = upto;
        Ok(self.tokens.get(index).copied())
    }
}

/// Numbers that look random.
struct Random(u64);

impl Random {
    fn below(&mut self, n: usize) -> usize {
        self.0 = self.0.wrapping_mul(6_364_136_223_846_793_005).wrapping_add(1_442_695_040_888_963_407);
        ((self.0 >> 33) as usize) % n
    }
}

#[test]
fn random_calls_answer_as_a_record_that_drops_nothing() {
    let parts = ["rule ", "a", " ", "$b", "{", "}", "\n", "// x\n", "\"s\"", "/re/i", "0x1F", "1.5", "~", "\u{e9}", "\u{2003}"];
    let mut random = Random(7);
    for _ in 0..400 {
        let src: String = (0..random.below(20)).map(|_| parts[random.below(parts.len())]).collect();
        let tokens: Vec<Token> = warpthistle::Tokens::new(src.as_bytes()).unwrap().collect();
        let slots = [0, 1, 2, 3, 5, 8, src.len()][random.below(7)].min(src.len());
        let mut stream = TokenStream::with_slots(src.as_bytes(), slots).unwrap();
        let mut model = Model { tokens, current: 0, fetched: 0, live: Vec::new(), slots };
        for _ in 0..100 {
            let index = random.below(8);
            match random.below(10) {
                0..=3 => {
                    let answer = model.look(model.current);
                    assert_eq!(stream.next_token(), answer);
                    model.current += usize::from(matches!(answer, Ok(Some(_))));
                }
                4 => assert_eq!(stream.peek_token(index), model.look(model.current + index)),
                5 => assert_eq!(stream.has_more(), model.look(model.current).map(|token| token.is_some())),
                6 => {
                    let expected =
                        if model.live.len() < BOOKMARK_LIMIT { Ok(Bookmark::new(model.current)) } else { Err(Refusal::TooManyBookmarks) };
                    assert_eq!(stream.bookmark(), expected);
                    model.live.extend(expected.map(Bookmark::index));
                }
                7 | 8 => {
                    let live = model.live.contains(&index);
                    assert_eq!(stream.restore_bookmark(&Bookmark::new(index)), if live { Ok(()) } else { Err(Refusal::NotLive) });
                    model.current = if live { index } else { model.current };
                }
                _ => {
                    let at = model.live.iter().position(|mark| *mark == index);
                    assert_eq!(stream.remove_bookmark(Bookmark::new(index)), at.map(|_| ()).ok_or(Refusal::NotLive));
                    at.map(|at| model.live.remove(at));
                }
            }
            assert_eq!(stream.current_token_index(), model.current);
        }
    }
}

#[test]
fn a_token_has_its_text() {
    let src = b"private rule x";
    let mut stream = TokenStream::new(src).unwrap();
    let token = stream.next_token().unwrap();
    assert_eq!((token.kind, token.span(), token.text(src)), (Kind::PrivateKw, 0..7, &b"private"[..]));
    assert_eq!(stream.source(), src);
}
