//! The Rust's grammar parser, docs/src's, unchanged and in place, beside an example that is built on the port: whether both enter the hex
//! modes at the same places, read the same tokens and, where the file has no error, make the same nodes of them. Prints one row of a table,
//! and before it what is worth telling; the exit status is 1 where anything differs.
mod ast;
mod compared;
#[allow(dead_code)]
#[rustfmt::skip]
#[path = "../../../docs/src/src/cst/mod.rs"]
mod cst;
mod damage;
mod kinds;
#[allow(dead_code)]
#[rustfmt::skip]
#[path = "../../../docs/src/src/parser/mod.rs"]
mod parser;
#[path = "../../compare/src/parts.rs"]
mod parts;
#[allow(dead_code)]
#[path = "../../compare/src/random.rs"]
mod random;
mod record;
#[path = "../../compare/src/row.rs"]
mod row;
mod tokenizer;

use compared::Found;
use parser::Parser;
use random::Random;
use row::Row;
use std::fmt::{Display, Formatter};
use std::ops::Range;
use std::process::ExitCode;

// here, as in the source: one of its constants is private to the root
include!(concat!(env!("OUT_DIR"), "/span.rs"));

const USAGE: &str = "
grammar files EXAMPLE FILE..                  files as they are
grammar damaged EXAMPLE COUNT SEED FILE..     copies of files in which tokens are missing, doubled, exchanged or cut off";

/// How many sources make a part of the work.
const PART: u64 = 64;

/// Runs the comparison that the command line names.
fn main() -> ExitCode {
    let words: Vec<String> = std::env::args().skip(1).collect();
    let words: Vec<&str> = words.iter().map(String::as_str).collect();
    let row = match words.as_slice() {
        ["files", example, files @ ..] => {
            let sources: Vec<Vec<u8>> = files.iter().map(|file| read(file)).collect();
            let what = format!("outline of {} rule files beside the grammar parser", files.len());
            on_sources(what, files.len() as u64, |found, i| found.compare(example, files[i as usize], &sources[i as usize]))
        }
        ["damaged", example, count, seed, files @ ..] => {
            let (count, seed) = (number(count), number(seed));
            let files: Vec<_> = files.iter().map(|file| damage::words(&read(file))).collect();
            let what = format!("outline of damaged copies beside the grammar parser, seed {seed}");
            on_sources(what, count, |found, i| {
                let src = damage::copy(&files, &mut Random::of_part(seed, i));
                found.compare(example, &format!("copy {i}, `{}`", src.escape_ascii()), &src);
            })
        }
        _ => {
            eprintln!("usage:{USAGE}");
            return ExitCode::from(2);
        }
    };
    println!("{row}");
    ExitCode::from(u8::from(row.differ > 0))
}

/// Compares so many sources, and tells what was found.
fn on_sources(what: String, count: u64, compare: impl Fn(&mut Found, u64) + Sync) -> Row {
    let parts = parts::in_parts(
        count.div_ceil(PART),
        || (),
        |(), part| {
            let mut found = Found::default();
            (part * PART..count.min((part + 1) * PART)).for_each(|i| compare(&mut found, i));
            found
        },
    );
    let found = parts.into_iter().fold(Found::default(), Found::and);
    println!("switches: {}", found.switches);
    println!("files in which the parser finds no error, so that all nodes are compared: {}", found.without_error);
    println!("behind an 81 or 82 the Rust has other tokens: {}", found.other_tokens);
    println!("behind an unclosed `for` or `with` the parser goes on past the rule: {}", found.past_the_rule);
    found.differences.iter().take(5).for_each(|words| println!("DIFFERS: {words}"));
    Row {
        what,
        cases: found.sources,
        compared: found.tokens,
        equal_whole: found.equal_whole,
        explained: found.other_tokens + found.past_the_rule,
        differ: found.differences.len() as u64,
    }
}

/// The bytes of a file.
fn read(file: &str) -> Vec<u8> {
    std::fs::read(file).unwrap_or_else(|error| panic!("{file}: {error}"))
}

/// A number of the command line.
fn number(word: &str) -> u64 {
    word.parse().unwrap_or_else(|_| panic!("{word} is no number"))
}
