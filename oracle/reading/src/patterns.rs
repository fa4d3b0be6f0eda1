//! The patterns of docs/src's tokenizer, taken from its text and run by another engine than the Rust's.
use crate::plain::{DIGITS, Mode};
use regex_automata::{DFA, DenseDFA, dense};
use std::collections::HashSet;

const SOURCE: &str = include_str!("../../../docs/src/src/tokenizer/mod.rs");

/// The operators and brackets in document 01's order, which numbers them from 41 on.
#[rustfmt::skip]
const OPERATORS: [&str; 27] = [
    "<<", ">>", "==", "!=", "<=", ">=", "<", ">", "&", "*", "\\", ":", ",", ".", "=", "+", "-", "%", "|", "^", "~",
    "{", "}", "(", ")", "[", "]",
];

/// A pattern of a mode.
pub struct Pattern {
    /// The number of its tokens' kind.
    pub kind: u32,
    /// Whether it is a text rather than a regular expression.
    pub literal: bool,
    automaton: DenseDFA<Vec<usize>, usize>,
}

/// The patterns of the three modes.
pub struct Patterns([Vec<Pattern>; 3]);

impl Patterns {
    /// The patterns as the source has them, with the decimal digits of Unicode 16.0.
    pub fn read() -> Self {
        Patterns(["NormalToken", "HexPatternToken", "HexJumpToken"].map(patterns_of))
    }

    /// The patterns of a mode.
    pub fn of(&self, mode: Mode) -> &[Pattern] {
        &self.0[mode as usize]
    }

    /// Kind and length of the longest match at the start of a text; at equal length a literal wins.
    pub fn longest(&self, mode: Mode, text: &[u8]) -> Option<(u32, usize)> {
        let matches = self.of(mode).iter().filter_map(|pattern| Some((pattern.automaton.find(text)?, pattern)));
        let (length, pattern) = matches.max_by_key(|(length, pattern)| (*length, pattern.literal))?;
        Some((pattern.kind, length))
    }

    /// How many bytes at the start of a text some pattern of normal mode can begin with; at least one.
    pub fn stuck_point(&self, text: &[u8]) -> usize {
        self.of(Mode::Normal).iter().map(|pattern| pattern.reach(text)).max().unwrap_or(0).max(1)
    }
}

impl Pattern {
    /// How many bytes at the start of a text this pattern can begin with.
    fn reach(&self, text: &[u8]) -> usize {
        let mut state = self.automaton.start_state();
        for (count, byte) in text.iter().enumerate() {
            state = self.automaton.next_state(state, *byte);
            if self.automaton.is_dead_state(state) {
                return count;
            }
        }
        text.len()
    }

    /// Whether some text is matched by both patterns, as a whole, and how many pairs of states were looked at.
    pub fn meets(&self, other: &Pattern) -> (bool, usize) {
        let (a, b) = (&self.automaton, &other.automaton);
        let start = (a.start_state(), b.start_state());
        let (mut seen, mut left) = (HashSet::from([start]), vec![start]);
        while let Some((p, q)) = left.pop() {
            if a.is_match_state(p) && b.is_match_state(q) {
                return (true, seen.len());
            }
            for byte in 0..=255 {
                let next = (a.next_state(p, byte), b.next_state(q, byte));
                if !a.is_dead_state(next.0) && !b.is_dead_state(next.1) && seen.insert(next) {
                    left.push(next);
                }
            }
        }
        (false, seen.len())
    }
}

/// The patterns of one enum of the source.
fn patterns_of(name: &str) -> Vec<Pattern> {
    let from = SOURCE.find(&format!("\nenum {name}")).unwrap_or_else(|| panic!("the tokenizer has no enum {name}"));
    let body = &SOURCE[from..];
    let body = &body[..body.find("\n}\n").expect("the end of the enum")];
    let mut attributes: Vec<(usize, bool)> = body.match_indices("#[token(").map(|(at, _)| (at, true)).collect();
    attributes.extend(body.match_indices("#[regex(").map(|(at, _)| (at, false)));
    attributes.iter().map(|&(at, literal)| pattern(&body[at + "#[token(".len()..], literal)).collect()
}

/// The pattern whose attribute has this text behind its opening parenthesis.
fn pattern(text: &str, literal: bool) -> Pattern {
    let (quoted, behind) = quoted(text.trim_start());
    let (kind, expression) = if literal {
        let text = quoted.replace("\\n", "\n").replace("\\r", "\r").replace("\\\\", "\\");
        (kind_of_literal(&text), regex_syntax::escape(&text))
    } else {
        (kind_of_variant(variant(behind)), quoted.replace("\\d", &digits()))
    };
    let mut builder = dense::Builder::new();
    builder.anchored(true).longest_match(true).allow_invalid_utf8(true);
    let automaton = builder.build(&expression).unwrap_or_else(|error| panic!("{quoted}: {error}"));
    Pattern { kind, literal, automaton }
}

/// What a Rust string literal, raw or not, has between its quotes, and the text behind it. Escapes are left: those that occur in the
/// regular expressions mean the same there.
fn quoted(text: &str) -> (&str, &str) {
    if let Some(raw) = text.strip_prefix("r#\"") {
        return raw.split_once("\"#").expect("the end of a raw string");
    }
    let text = text.strip_prefix('"').expect("a string");
    let mut escaped = false;
    let closing = |c: char| {
        let closes = c == '"' && !escaped;
        escaped = c == '\\' && !escaped;
        closes
    };
    text.split_once(closing).expect("the end of a string")
}

/// The enum's variant that follows the rest of an attribute.
fn variant(behind: &str) -> &str {
    let (_, lines) = behind.split_once("]\n").expect("the end of an attribute");
    let line = lines.lines().map(str::trim).find(|line| !line.is_empty() && !line.starts_with("//")).expect("a variant");
    line.split(|c: char| !c.is_alphanumeric()).next().expect("a name")
}

/// A class of the decimal digits.
fn digits() -> String {
    let runs: String = DIGITS.iter().map(|first| format!("\\x{{{first:X}}}-\\x{{{:X}}}", first + 9)).collect();
    format!("[{runs}]")
}

/// The number of a literal's kind; the keywords are numbered by how many are less.
fn kind_of_literal(text: &str) -> u32 {
    match OPERATORS.iter().position(|operator| *operator == text) {
        Some(k) => 41 + k as u32,
        None if text.trim().is_empty() => 79,
        None => 1 + keywords().filter(|keyword| *keyword < text).count() as u32,
    }
}

/// The literals of the source that are words.
fn keywords() -> impl Iterator<Item = &'static str> {
    let literals = SOURCE.match_indices("#[token(").map(|(at, found)| quoted(&SOURCE[at + found.len()..]).0);
    literals.filter(|text| text.bytes().all(|b| b.is_ascii_alphanumeric()))
}

/// The number of the kind of an enum's variant.
fn kind_of_variant(name: &str) -> u32 {
    match name {
        "PatternIdent" => 68,
        "PatternCount" => 69,
        "PatternOffset" => 70,
        "PatternLength" => 71,
        "Ident" => 72,
        "FloatLit" => 73,
        "IntegerLit" => 74,
        "StringLit" | "MultiLineStringLit" => 75,
        "Regexp" => 76,
        "BlockComment" | "Comment" => 77,
        "Whitespace" => 78,
        "Byte" => 80,
        _ => panic!("document 01 numbers no kind {name}"),
    }
}
