//! The Rust against its patterns' text.
use super::findings::{hex, list};
use super::readers::{StuckPoint, read};
use super::sources;
use super::{MODES, PART, part_of};
use crate::parts::in_parts;
use crate::random::Random;
use crate::row::Row;
use reading::patterns::{Pattern, Patterns};

/// Random sources: the Rust's tokens must be those of its patterns, with the rule of the stuck point where none matches.
pub fn patterns(count: u64, seed: u64) -> Row {
    let patterns = Patterns::read();
    let parts = in_parts(
        count.div_ceil(PART),
        || (Vec::new(), Vec::new()),
        |(rust, by_patterns), part| {
            let mut random = Random::of_part(seed, part);
            let (mut tokens, mut differ) = (0, 0);
            for _ in part_of(count, part) {
                let (src, start, switches) = sources::random(&mut random);
                read(&mut rust::Tokens::open(&src), start, &switches, rust);
                read(&mut StuckPoint::open(&src, &patterns), start, &switches, by_patterns);
                tokens += rust.len() as u64;
                if rust != by_patterns {
                    differ += 1;
                    println!(
                        "DIFFERS, {} ({start:?} mode, {switches:?})\n    Rust: {}\n    patterns: {}",
                        hex(&src),
                        list(rust),
                        list(by_patterns)
                    );
                }
            }
            (tokens, differ)
        },
    );
    let compared = parts.iter().map(|(tokens, _)| tokens).sum();
    let differ = parts.iter().map(|(_, differ)| differ).sum();
    let what = format!("the Rust by its patterns in another engine, random sources, seed {seed}");
    Row { what, cases: count, compared, equal_whole: count - differ, explained: 0, differ }
}

/// Every two patterns of one mode: whether they match the same text. Document 01 knows of a keyword and IDENT only.
pub fn ties() -> Row {
    let patterns = Patterns::read();
    let mut row = Row {
        what: "pairs of patterns that match the same text".to_string(),
        cases: 0,
        compared: 0,
        equal_whole: 0,
        explained: 0,
        differ: 0,
    };
    for mode in MODES {
        let all = patterns.of(mode);
        for (k, one) in all.iter().enumerate() {
            all[k + 1..].iter().for_each(|other| tie(one, other, &mut row));
        }
    }
    println!("{} pairs match no text in common, {} are a keyword and IDENT", row.equal_whole, row.explained);
    row
}

/// Adds a pair of patterns to the row.
fn tie(one: &Pattern, other: &Pattern, row: &mut Row) {
    let (meet, states) = one.meets(other);
    row.cases += 1;
    row.compared += states as u64;
    let kinds = (one.kind.min(other.kind), one.kind.max(other.kind));
    match (meet, kinds) {
        (false, _) => row.equal_whole += 1,
        (true, (1..=40, 72)) => row.explained += 1,
        (true, _) => {
            row.differ += 1;
            println!("DIFFERS, kinds {} and {} match the same text", kinds.0, kinds.1);
        }
    }
}
