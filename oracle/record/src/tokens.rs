//! The Rust's tokens of whole sources, as a listing and as records.
use crate::hex;
use rust::{Mode, Tok, Tokens};
use std::io::Read;

/// The least kind that is outside document 01's domain of equality: INVALID_UTF8, which only UNKNOWN follows.
pub const FIRST_OUTSIDE: u32 = 81;

/// The mode of a name.
fn mode(name: &str) -> Mode {
    match name {
        "normal" => Mode::Normal,
        "pattern" => Mode::Pattern,
        "jump" => Mode::Jump,
        other => panic!("`{other}` is no mode"),
    }
}

/// The tokens of a source that is read from a mode on.
fn tokens(source: &[u8], start: &str) -> Vec<Tok> {
    let mut tokens = Tokens::open(source);
    tokens.enter(mode(start));
    tokens.collect()
}

/// A token in the words of the listing: kind, start, end.
pub fn words(token: Tok) -> String {
    format!("{} {} {}", token.kind, token.start, token.end)
}

/// Prints document 01's listing of standard input.
pub fn list(start: &str) {
    let mut source = Vec::new();
    std::io::stdin().read_to_end(&mut source).expect("standard input");
    let tokens = tokens(&source, start);
    println!("tokens {}", tokens.len());
    tokens.into_iter().for_each(|token| println!("{}", words(token)));
}

/// Prints the record of each source that a line of standard input has in hexadecimal.
pub fn records(start: &str) {
    for line in std::io::stdin().lines() {
        println!("{}", record(&hex::bytes(&line.expect("a line")), start));
    }
}

/// The record of a source: source, mode, kind and end of each token. It stops with kind and start of the first outside of the domain.
pub fn record(source: &[u8], start: &str) -> String {
    let mut line = format!("{} {}", hex::text(source), mode(start) as u32);
    for token in tokens(source, start) {
        if token.kind >= FIRST_OUTSIDE {
            return format!("{line} {} {}", token.kind, token.start);
        }
        line += &format!(" {} {}", token.kind, token.end);
    }
    line
}
