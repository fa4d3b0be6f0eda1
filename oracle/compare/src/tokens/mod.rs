//! Tokens: the Rust, the port and the plain reading of document 01 on the same sources.
mod cases;
mod comparison;
mod findings;
mod patterns;
mod readers;
mod refusals;
mod sources;
mod unicode;

pub use cases::cases;
pub use patterns::{patterns, ties};
pub use refusals::refusals;
pub use unicode::unicode;

use crate::parts::in_parts;
use crate::random::Random;
use crate::row::Row;
use comparison::Comparison;
use findings::Findings;
use reading::patterns::Patterns;
use reading::plain::Mode;

const MODES: [Mode; 3] = [Mode::Normal, Mode::Pattern, Mode::Jump];

/// What is drawn is drawn in parts of this many.
const PART: u64 = 1_000;

/// The numbers, below a count, of what is drawn in a part.
fn part_of(count: u64, part: u64) -> std::ops::Range<u64> {
    part * PART..count.min((part + 1) * PART)
}

/// Every source of up to so many bytes, in the three modes.
pub fn bytes(length: u64) -> Row {
    let all: Vec<u8> = (0..=255).collect();
    every(format!("every source of up to {length} bytes, 3 modes"), &all, length)
}

/// Every source of up to so many bytes that matter to the rules, in the three modes.
pub fn alphabet(length: u64) -> Row {
    let letters = sources::ALPHABET;
    every(format!("every source of up to {length} of {} bytes that matter, 3 modes", letters.len()), &letters, length)
}

/// Every source of up to so many letters, in the three modes; a part has those that begin with one letter.
fn every(what: String, letters: &[u8], length: u64) -> Row {
    compared(what, letters.len() as u64, |comparison, part| {
        let mut in_all_modes = |src: &[u8]| MODES.iter().for_each(|mode| comparison.compare(src, *mode, &[]));
        if part == 0 {
            in_all_modes(b"");
        }
        sources::every(letters, part as usize, length as usize, in_all_modes);
    })
}

/// Random sources.
pub fn random(count: u64, seed: u64) -> Row {
    compared(format!("random sources with switches, seed {seed}"), count.div_ceil(PART), |comparison, part| {
        let mut random = Random::of_part(seed, part);
        for _ in part_of(count, part) {
            let (src, start, switches) = sources::random(&mut random);
            comparison.compare(&src, start, &switches);
        }
    })
}

/// Rule files, as they are and with the switches that the grammar parser makes.
pub fn files(paths: &[&str]) -> Row {
    let files = contents(paths);
    let switches: usize = files.iter().map(|src| sources::parser_switches(src).len()).sum();
    println!("switches that the parser makes: {switches}");
    let what = format!("{} rule files, with the parser's switches and without", files.len());
    compared(what, files.len() as u64, |comparison, part| {
        let src = &files[part as usize];
        comparison.compare(src, Mode::Normal, &[]);
        comparison.compare(src, Mode::Normal, &sources::parser_switches(src));
    })
}

/// Copies of rule files that were damaged; every second one is read with the switches that the grammar parser makes.
pub fn damaged(count: u64, seed: u64, paths: &[&str]) -> Row {
    let files = contents(paths);
    compared(format!("damaged copies of {} rule files, seed {seed}", files.len()), count.div_ceil(PART), |comparison, part| {
        let mut random = Random::of_part(seed, part);
        for number in part_of(count, part) {
            let file: &Vec<u8> = random.one_of(&files);
            let src = sources::damaged(file, &mut random);
            let switches = if number % 2 == 0 { sources::parser_switches(&src) } else { Vec::new() };
            comparison.compare(&src, Mode::Normal, &switches);
        }
    })
}

/// What the files have, less those that are too long for document 01.
fn contents(paths: &[&str]) -> Vec<Vec<u8>> {
    let read = |path: &&str| std::fs::read(path).unwrap_or_else(|error| panic!("{path}: {error}"));
    let files: Vec<Vec<u8>> = paths.iter().map(read).filter(|src| src.len() <= 65_535).collect();
    println!("{} files, {} more are too long", files.len(), paths.len() - files.len());
    files
}

/// The row of a comparison in parts.
fn compared(what: String, parts: u64, part: impl Fn(&mut Comparison, u64) + Sync) -> Row {
    let patterns = Patterns::read();
    let each = in_parts(
        parts,
        || Comparison::new(&patterns),
        |comparison, number| {
            part(comparison, number);
            std::mem::take(&mut comparison.findings)
        },
    );
    let all = Findings::joined(each);
    all.print();
    all.row(what)
}
