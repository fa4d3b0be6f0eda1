//! What comparisons of tokens found.
use super::readers::{Departure, Switch};
use crate::row::Row;
use reading::plain::{Mode, Tok};

/// A source in words, with what each made of it.
pub struct Case(String);

impl Case {
    /// The words for a source and lists of its tokens, by name, from where these are no longer all alike.
    pub fn of(src: &[u8], start: Mode, switches: &[Switch], lists: [(&str, &[Tok]); 3]) -> Case {
        let [(_, first), ..] = lists;
        let alike = (0..first.len()).take_while(|k| lists.iter().all(|(_, tokens)| tokens.get(*k) == Some(&first[*k]))).count();
        let lines = lists.map(|(name, tokens)| format!("\n    {name}: {}", list(&tokens[alike..])));
        Case(format!("{} ({start:?} mode{}), behind {alike} tokens{}", hex(src), words_of(switches), lines.concat()))
    }
}

/// The first bytes of a source in hexadecimal.
pub fn hex(src: &[u8]) -> String {
    let most = 200;
    let bytes: Vec<String> = src.iter().take(most).map(|byte| format!("{byte:02X}")).collect();
    let more = if src.len() > most { " and more" } else { "" };
    bytes.join(" ") + more
}

/// The first tokens of a list, as document 01 writes them.
pub fn list(tokens: &[Tok]) -> String {
    let most = 8;
    let words: Vec<String> = tokens.iter().take(most).map(|token| format!("{} {}..{}", token.kind, token.start, token.end)).collect();
    match tokens.len() {
        0 => "none".to_string(),
        count if count > most => words.join(", ") + " and more",
        _ => words.join(", "),
    }
}

/// Switches in words.
fn words_of(switches: &[Switch]) -> String {
    switches.iter().map(|(count, mode)| format!(", {mode:?} mode behind {count} tokens")).collect()
}

/// How often a departure explains a source, and the smallest source it explains: the shortest, then the one of the least bytes.
#[derive(Default)]
struct Explained {
    count: u64,
    smallest: Option<(Vec<u8>, Case)>,
}

impl Explained {
    /// Keeps a source if it is smaller than the one kept.
    fn keep(&mut self, src: &[u8], case: impl FnOnce() -> Case) {
        if self.smallest.as_ref().is_none_or(|(least, _)| (src.len(), src) < (least.len(), least.as_slice())) {
            self.smallest = Some((src.to_vec(), case()));
        }
    }
}

/// Counts, the smallest sources, and the first differences.
pub struct Findings {
    cases: u64,
    kinds: [u64; 83],
    without_unmatched: u64,
    pub equal_whole: u64,
    explained: [Explained; 2],
    differ: u64,
    differences: Vec<String>,
}

impl Default for Findings {
    fn default() -> Self {
        let explained = Default::default();
        Findings { cases: 0, kinds: [0; 83], without_unmatched: 0, equal_whole: 0, explained, differ: 0, differences: Vec::new() }
    }
}

/// So many differences are told in full.
const TOLD: usize = 5;

impl Findings {
    /// Counts a source and its tokens.
    pub fn count(&mut self, tokens: &[Tok]) {
        self.cases += 1;
        tokens.iter().for_each(|token| self.kinds[token.kind.min(82) as usize] += 1);
        self.without_unmatched += u64::from(tokens.iter().all(|token| token.kind < 81));
    }

    /// Notes a source that is outside the domain and explained.
    pub fn explained(&mut self, departure: Departure, src: &[u8], case: impl FnOnce() -> Case) {
        let explained = &mut self.explained[departure as usize];
        explained.count += 1;
        explained.keep(src, case);
    }

    /// Notes a difference that nothing explains.
    pub fn differs(&mut self, how: &str, case: impl FnOnce() -> Case) {
        self.differ += 1;
        if self.differences.len() < TOLD {
            self.differences.push(format!("{how}: {}", case().0));
        }
    }

    /// All findings in one.
    pub fn joined(each: Vec<Findings>) -> Findings {
        let mut all = Findings::default();
        for findings in each {
            all.cases += findings.cases;
            all.without_unmatched += findings.without_unmatched;
            all.equal_whole += findings.equal_whole;
            all.differ += findings.differ;
            all.differences.extend(findings.differences);
            all.kinds.iter_mut().zip(findings.kinds).for_each(|(sum, count)| *sum += count);
            for (one, more) in all.explained.iter_mut().zip(findings.explained) {
                one.count += more.count;
                more.smallest.into_iter().for_each(|(src, case)| one.keep(&src, || case));
            }
        }
        all
    }

    /// Tells what the row does not.
    pub fn print(&self) {
        let [unknown, left_out] = &self.explained;
        let kinds = self.kinds.iter().filter(|count| **count > 0).count();
        println!("sources without 81 and 82: {}; kinds that occur: {kinds} of 82", self.without_unmatched);
        for (what, explained) in
            [("UNKNOWN ends at the stuck point", unknown), ("behind INVALID_UTF8 reading goes on at the stuck point", left_out)]
        {
            println!("explained, {what} first: {}", explained.count);
            if let Some((_, Case(words))) = &explained.smallest {
                println!("  smallest: {words}");
            }
        }
        self.differences.iter().take(TOLD).for_each(|words| println!("DIFFERS, {words}"));
    }

    /// The row of the table.
    pub fn row(&self, what: String) -> Row {
        let explained = self.explained.iter().map(|explained| explained.count).sum();
        Row { what, cases: self.cases, compared: self.kinds.iter().sum(), equal_whole: self.equal_whole, explained, differ: self.differ }
    }
}
