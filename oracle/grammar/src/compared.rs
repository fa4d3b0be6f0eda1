//! Sources that an example reads, and the Rust's grammar parser reads too.
use crate::record::Record;
use crate::tokenizer::Tokens;
use std::io::Write;
use std::process::{Command, Stdio};

/// What was found on sources.
#[derive(Default)]
pub struct Found {
    pub sources: u64,
    pub tokens: u64,
    pub switches: u64,
    /// Sources in which the Rust's parser finds no error: there all nodes are compared.
    pub without_error: u64,
    pub equal_whole: u64,
    /// Sources with an 81 or 82, behind which the Rust's tokens are others; over document 01's tokens its parser does the same.
    pub other_tokens: u64,
    /// Sources with a `for` or `with` that is not closed: the parser goes on past the end of the rule in search of the parenthesis, and
    /// reads or skips the rules there in normal mode. The examples do not take conditions apart. Equal up to there.
    pub past_the_rule: u64,
    pub differences: Vec<String>,
}

impl Found {
    /// Compares one source.
    pub fn compare(&mut self, example: &str, name: &str, src: &[u8]) {
        let (rust, plain) = (Record::of(src, Tokens::Rust), Record::of(src, Tokens::Plain));
        self.sources += 1;
        self.tokens += plain.tokens.len() as u64;
        self.switches += plain.switches.len() as u64;
        self.without_error += u64::from(rust.errors == 0);
        let (switches, events) = (said(example, "--switches", src), said(example, "--events", src));
        match (differs(&rust, &switches, &events), differs(&plain, &switches, &events)) {
            (None, _) => self.equal_whole += 1,
            (_, None) if rust.tokens.iter().any(|token| token.kind >= 81) => self.other_tokens += 1,
            _ if goes_past(&plain, &switches) => self.past_the_rule += 1,
            (Some(how), _) => self.differences.push(format!("{name}: {how}")),
        }
    }

    /// Both together.
    pub fn and(mut self, other: Found) -> Found {
        self.sources += other.sources;
        self.tokens += other.tokens;
        self.switches += other.switches;
        self.without_error += other.without_error;
        self.equal_whole += other.equal_whole;
        self.other_tokens += other.other_tokens;
        self.past_the_rule += other.past_the_rule;
        self.differences.extend(other.differences);
        self
    }
}

/// How an example's lines differ from the record: in the switches, in the tokens, or, where the parser finds no error, in the nodes.
fn differs(record: &Record, switches: &[String], events: &[String]) -> Option<String> {
    let tokens: Vec<String> = events.iter().filter(|line| line.starts_with("token ")).cloned().collect();
    first_apart("switch", &record.switches, switches)
        .or_else(|| first_apart("token", &record.token_lines(), &tokens))
        .or_else(|| if record.errors == 0 { first_apart("event", &record.events, events) } else { None })
}

/// Whether the first switch that differs does so because the parser went on past a rule: it had looked at tokens behind the bracket before,
/// or an expression that swallowed a closing brace stands before the example's switch.
fn goes_past(record: &Record, switches: &[String]) -> bool {
    first_place(&record.switches, switches).is_some_and(|i| {
        let place = switches.get(i).and_then(|line| line.rsplit(' ').next()?.parse::<usize>().ok());
        record.late.contains(&i) || record.swallowing.zip(place).is_some_and(|(start, place)| start < place)
    })
}

/// The first place in which two lists differ.
fn first_place(rust: &[String], example: &[String]) -> Option<usize> {
    (0..rust.len().max(example.len())).find(|&i| rust.get(i) != example.get(i))
}

/// The first line in which two lists differ, in words.
fn first_apart(what: &str, rust: &[String], example: &[String]) -> Option<String> {
    let place = first_place(rust, example)?;
    let line = |list: &[String]| list.get(place).map_or("none".to_string(), |line| format!("`{line}`"));
    Some(format!("{what} {place} is {} by the Rust, {} by the example", line(rust), line(example)))
}

/// The lines that an example prints, with an option, of a source on its standard input.
fn said(example: &str, option: &str, src: &[u8]) -> Vec<String> {
    let mut child = Command::new(example).arg(option).stdin(Stdio::piped()).stdout(Stdio::piped()).spawn().expect("the example runs");
    child.stdin.take().unwrap().write_all(src).expect("the example reads");
    let output = child.wait_with_output().expect("the example ends");
    assert!(matches!(output.status.code(), Some(0 | 1)), "the example ends with {}", output.status);
    String::from_utf8(output.stdout).expect("the example writes ASCII").lines().map(str::to_string).collect()
}
