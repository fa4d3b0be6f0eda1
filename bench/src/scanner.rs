//! The listing and the list of tokens.
use crate::rounds::{Row, measure};
use reading::plain::{self, Mode};
use std::hint::black_box;

/// The listing as text, against the scanner that was written by hand in Rust. The unit is a byte of the source.
pub fn listing(what: &str, src: &[u8]) -> Row {
    let mut room = vec![0; 13 + 15 * src.len()];
    let mut len = 0;
    let mut text = Vec::with_capacity(room.len());
    port::listing(src, &mut room, &mut len).expect("a listing");
    plain::listing(src, &mut text);
    assert!(room[..len] == text, "{what}: the listings differ");
    measure(
        what,
        src.len(),
        || port::listing(black_box(src), &mut room, &mut len).expect("a listing"),
        || {
            text.clear();
            plain::listing(black_box(src), &mut text);
        },
    )
}

/// The tokens as numbers, against the list of the same scanner. The unit is a byte.
pub fn tokens(what: &str, src: &[u8]) -> Row {
    against(what, src, |src, list| plain::scan_all(src, 0, Mode::Normal, list))
}

/// The tokens as numbers, against the Rust's own tokenizer. The unit is a byte.
pub fn tokens_of_the_rust(what: &str, src: &[u8]) -> Row {
    against(what, src, |src, list| list.extend(rust::Tokens::open(src)))
}

/// The tokens as numbers, against a way to list them in Rust.
fn against(what: &str, src: &[u8], list: impl Fn(&[u8], &mut Vec<plain::Tok>)) -> Row {
    let mut room = Vec::new();
    let mut found = Vec::new();
    list(src, &mut found);
    assert!(port::tokens(src, 0, Mode::Normal, &mut room).expect("tokens") == found, "{what}: the tokens differ");
    measure(
        what,
        src.len(),
        || {
            black_box(port::tokens(black_box(src), 0, Mode::Normal, &mut room).expect("tokens"));
        },
        || {
            found.clear();
            list(black_box(src), &mut found);
        },
    )
}
