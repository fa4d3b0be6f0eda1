//! What the Rust's grammar parser does on a source, in the lines that the examples print of themselves.
use crate::cst::{Event, SyntaxKind};
use crate::tokenizer::{self, Tokens};
use crate::{Parser, Span};
use reading::plain::{Mode, Tok};

/// The nodes that the examples have too; they leave expressions, sub-patterns and modifiers of patterns out.
#[rustfmt::skip]
const NODES: [&str; 13] = [
    "IMPORT_STMT", "INCLUDE_STMT", "RULE_DECL", "RULE_MODS", "RULE_TAGS", "META_BLK", "META_DEF",
    "PATTERNS_BLK", "PATTERN_DEF", "HEX_PATTERN", "HEX_ALTERNATIVE", "HEX_JUMP", "CONDITION_BLK",
];

/// What was asked of the tokenizer, and what was made of it.
pub struct Record {
    /// The tokens that were fetched.
    pub tokens: Vec<Tok>,
    /// The switches: the mode, how many tokens were fetched before, and where the last of them ends.
    pub switches: Vec<String>,
    /// The switches, by their place in the list, behind tokens that had been looked at before: the last one fetched is no bracket.
    pub late: Vec<usize>,
    /// Where a `for` or `with` starts that holds a closing brace, of which none has one.
    pub swallowing: Option<usize>,
    /// Nodes and tokens.
    pub events: Vec<String>,
    /// How many errors were told.
    pub errors: usize,
}

impl Record {
    /// The record on a source, where the parser is given these tokens.
    pub fn of(src: &[u8], tokens: Tokens) -> Self {
        tokenizer::choose(tokens);
        let events: Vec<Event> = Parser::new(src).collect();
        let (tokens, switches) = tokenizer::asked();
        let last = |fetched: usize| tokens[fetched - 1]; // a switch comes behind its bracket
        Record {
            switches: switches.iter().map(|&(fetched, mode)| format!("{} {fetched} {}", name(mode), last(fetched).end)).collect(),
            late: (0..switches.len()).filter(|&i| last(switches[i].0).kind != bracket(switches[i].1)).collect(),
            swallowing: events.iter().find_map(|event| swallowing(event, &tokens)),
            events: events.iter().filter_map(|event| line(event, &tokens)).collect(),
            errors: events.iter().filter(|event| matches!(event, Event::Error { .. })).count(),
            tokens,
        }
    }

    /// The tokens as lines of events.
    pub fn token_lines(&self) -> Vec<String> {
        self.tokens.iter().map(token_line).collect()
    }
}

/// The examples' word for a mode.
fn name(mode: Mode) -> &'static str {
    match mode {
        Mode::Normal => "normal",
        Mode::Pattern => "pattern",
        Mode::Jump => "jump",
    }
}

/// The kind of the token behind which the parser enters a mode.
fn bracket(mode: Mode) -> u32 {
    if mode == Mode::Jump { 66 } else { 62 }
}

/// Where a `for` or `with` starts, if the event begins one that holds a closing brace.
fn swallowing(event: &Event, tokens: &[Tok]) -> Option<usize> {
    match event {
        Event::Begin { kind: SyntaxKind::FOR_EXPR | SyntaxKind::WITH_EXPR, span } => {
            tokens.iter().any(|token| token.kind == 63 && span.range().contains(&(token.start as usize))).then_some(span.start())
        }
        _ => None,
    }
}

/// The line of a token.
fn token_line(Tok { kind, start, end }: &Tok) -> String {
    format!("token {kind} {start} {end}")
}

/// The line of an event, if the examples have it. A token's kind is the one it was fetched with: the parser has several for one.
fn line(event: &Event, tokens: &[Tok]) -> Option<String> {
    let node = |word: &str, kind: String, span: &Span| {
        NODES.contains(&kind.as_str()).then(|| format!("{word} {kind} {} {}", span.start(), span.end()))
    };
    match event {
        Event::Begin { kind, span } => node("begin", format!("{kind:?}"), span),
        Event::End { kind, span } => node("end", format!("{kind:?}"), span),
        Event::Token { span, .. } => tokens.binary_search_by_key(&span.0.start, |token| token.start).ok().map(|i| token_line(&tokens[i])),
        Event::Error { .. } => None,
    }
}
