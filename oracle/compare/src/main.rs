//! Compares the port with the Rust and with readings of document 01. Each comparison prints one row of a table, and before it what is
//! worth telling; the exit status is 1 where anything differs.
mod caught;
mod events;
mod parts;
mod random;
mod row;
mod search;
mod tally;
mod tokens;
mod window;

use row::Row;
use std::process::ExitCode;

const USAGE: &str = "
compare cases                         document 01's marked cases on tokens
compare tokens bytes LENGTH           every source of up to so many bytes, in the three modes
compare tokens alphabet LENGTH        every source of up to so many bytes that matter to the rules, in the three modes
compare tokens random COUNT SEED      random sources with switches of the mode
compare tokens files FILE..           files as they are, and with the switches that the grammar parser makes
compare tokens damaged COUNT SEED FILE..   copies of files with bytes removed, doubled, replaced, swapped or cut off
compare tokens unicode                every character behind a letter, behind `$`, behind a blank and behind `;`
compare tokens refusals COUNT SEED    forged places and modes, short rooms, sources that are too long; listings
compare tokens patterns COUNT SEED    the Rust against its patterns, run by another engine
compare tokens ties                   which patterns match the same text
compare window random COUNT SEED      random calls on windows
compare window smallest               every short sequence of calls on small windows, in search of differences
compare events random COUNT SEED      random calls on event streams
compare events smallest               every short sequence of calls on event streams, in search of differences
compare fault                         the window's fault in the Rust, on document 01's case";

/// Runs the comparison that the command line names.
fn main() -> ExitCode {
    let words: Vec<String> = std::env::args().skip(1).collect();
    let words: Vec<&str> = words.iter().map(String::as_str).collect();
    let row: Row = match words.as_slice() {
        ["cases"] => tokens::cases(),
        ["tokens", "bytes", length] => tokens::bytes(number(length)),
        ["tokens", "alphabet", length] => tokens::alphabet(number(length)),
        ["tokens", "random", count, seed] => tokens::random(number(count), number(seed)),
        ["tokens", "files", files @ ..] => tokens::files(files),
        ["tokens", "damaged", count, seed, files @ ..] => tokens::damaged(number(count), number(seed), files),
        ["tokens", "unicode"] => tokens::unicode(),
        ["tokens", "refusals", count, seed] => tokens::refusals(number(count), number(seed)),
        ["tokens", "patterns", count, seed] => tokens::patterns(number(count), number(seed)),
        ["tokens", "ties"] => tokens::ties(),
        ["window", "random", count, seed] => window::random(number(count), number(seed)),
        ["window", "smallest"] => window::smallest(),
        ["events", "random", count, seed] => events::random(number(count), number(seed)),
        ["events", "smallest"] => events::smallest(),
        ["fault"] => window::fault(),
        _ => {
            eprintln!("usage:{USAGE}");
            return ExitCode::from(2);
        }
    };
    println!("{row}");
    ExitCode::from(u8::from(row.differ > 0))
}

/// A number of the command line.
fn number(word: &str) -> u64 {
    word.parse().unwrap_or_else(|_| panic!("{word} is no number"))
}
