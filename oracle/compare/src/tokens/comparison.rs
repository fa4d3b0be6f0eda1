//! One source held to the Rust, the port and the plain reading.
use super::findings::{Case, Findings};
use super::readers::{Departure, Plain, StuckPoint, Switch, read, read_port};
use reading::patterns::Patterns;
use reading::plain::{Mode, Tok};

/// The last source's tokens, and the findings on all sources.
pub struct Comparison<'a> {
    patterns: &'a Patterns,
    pub rust: Vec<Tok>,
    pub port: Vec<Tok>,
    plain: Vec<Tok>,
    room: Vec<u32>,
    pub findings: Findings,
}

/// What a comparison of one source comes to.
enum Verdict {
    EqualWhole,
    Explained(Departure),
    Differ(&'static str),
}

impl<'a> Comparison<'a> {
    /// Nothing compared yet.
    pub fn new(patterns: &'a Patterns) -> Self {
        Comparison { patterns, rust: Vec::new(), port: Vec::new(), plain: Vec::new(), room: Vec::new(), findings: Findings::default() }
    }

    /// Reads a source in all ways and notes what is found.
    pub fn compare(&mut self, src: &[u8], start: Mode, switches: &[Switch]) {
        read(&mut rust::Tokens::open(src), start, switches, &mut self.rust);
        read(&mut Plain::open(src), start, switches, &mut self.plain);
        let refused = read_port(src, start, switches, &mut self.room, &mut self.port).is_err();
        let verdict = if refused { Verdict::Differ("the port refuses it") } else { self.verdict(src, start, switches) };
        self.findings.count(&self.port);
        let lists = [("Rust", self.rust.as_slice()), ("port", &self.port), ("plain", &self.plain)];
        let case = || Case::of(src, start, switches, lists);
        match verdict {
            Verdict::EqualWhole => self.findings.equal_whole += 1,
            Verdict::Explained(departure) => self.findings.explained(departure, src, case),
            Verdict::Differ(how) => self.findings.differs(how, case),
        }
    }

    /// The port must be the plain reading; the Rust must be the port inside document 01's domain, and beyond it be explained.
    fn verdict(&self, src: &[u8], start: Mode, switches: &[Switch]) -> Verdict {
        if self.port != self.plain {
            Verdict::Differ("the port is not the plain reading")
        } else if self.rust == self.port {
            Verdict::EqualWhole
        } else if !equal_in_domain(&self.rust, &self.port) {
            Verdict::Differ("the Rust is not the port, inside the domain")
        } else {
            self.explanation(src, start, switches)
        }
    }

    /// Whether the rule of the stuck point gives the Rust's tokens.
    fn explanation(&self, src: &[u8], start: Mode, switches: &[Switch]) -> Verdict {
        let (mut reader, mut list) = (StuckPoint::open(src, self.patterns), Vec::new());
        read(&mut reader, start, switches, &mut list);
        match reader.departure {
            Some(departure) if list == self.rust => Verdict::Explained(departure),
            _ => Verdict::Differ("the Rust is not the port, and the rule of the stuck point does not explain it"),
        }
    }
}

/// Document 01's domain of equality: whole lists without 81 and 82, else up to and including kind and start of the first such token.
fn equal_in_domain(rust: &[Tok], port: &[Tok]) -> bool {
    let unmatched = |token: &Tok| token.kind >= 81;
    match (rust.iter().position(unmatched), port.iter().position(unmatched)) {
        (Some(i), Some(j)) => rust[..i] == port[..j] && rust[i].kind == port[j].kind && rust[i].start == port[j].start,
        _ => rust == port,
    }
}
