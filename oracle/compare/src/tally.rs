//! What sequences of calls showed: how often what happened, the smallest sequence of each kind, and whatever differs.
use crate::parts::in_parts;
use crate::row::Row;
use std::collections::BTreeMap;
use std::fmt::Display;

/// Counts by name, the shortest sequence kept under a name, and the differences that nothing explains.
#[derive(Default)]
pub struct Tally {
    counts: BTreeMap<String, u64>,
    smallest: BTreeMap<String, (usize, String)>,
    differences: Vec<String>,
}

/// Counts of random sequences.
const CALLS: &str = "calls";
const INSIDE: &str = "inside the domain, equal to the Rust";
const WHOLE: &str = "sequences inside the domain to their end";
const LEAVES: &str = "sequences that leave the domain";

/// How many sequences make a part of the work.
const PART: u64 = 256;

impl Tally {
    /// What numbered sequences show together.
    pub fn of_sequences(count: u64, sequence: impl Fn(u64, &mut Tally) + Sync) -> Tally {
        Tally::joined(in_parts(
            count.div_ceil(PART),
            || (),
            |(), part| {
                let mut tally = Tally::default();
                (part * PART..count.min((part + 1) * PART)).for_each(|number| sequence(number, &mut tally));
                tally
            },
        ))
    }

    /// Prints all, and gives the row of so many random sequences.
    pub fn row(&self, what: String, cases: u64) -> Row {
        self.print();
        let (compared, equal_whole, explained) = (self.of(CALLS), self.of(WHOLE), self.of(LEAVES));
        Row { what, cases, compared, equal_whole, explained, differ: self.differ() }
    }

    /// Counts the calls of a sequence by name, and those that are refused by number.
    pub fn count_calls(&mut self, calls: impl Iterator<Item = (&'static str, Option<u32>)> + Clone) {
        self.count_names(CALLS, calls.clone().map(|(name, _)| name));
        calls.filter_map(|(_, refusal)| refusal).for_each(|number| self.count(&format!("refused {number:2}")));
    }

    /// Counts the calls that were inside the domain and answered alike, and whether the sequence stayed there or how it left.
    pub fn count_inside(&mut self, names: Vec<&'static str>, leaves: Option<&str>) {
        self.count_names(INSIDE, names.into_iter());
        match leaves {
            Some(way) => {
                self.count(LEAVES);
                self.count(&format!("{LEAVES}: {way}"));
            }
            None => self.count(WHOLE),
        }
    }

    /// Counts calls, all and by name.
    fn count_names(&mut self, what: &str, names: impl Iterator<Item = &'static str>) {
        let mut by_name = BTreeMap::new();
        names.for_each(|name| *by_name.entry(name).or_insert(0) += 1);
        self.count_many(what, by_name.values().sum());
        by_name.iter().for_each(|(name, &count)| self.count_many(&format!("{what}, {name}"), count));
    }

    /// Counts one more under a name.
    pub fn count(&mut self, name: &str) {
        self.count_many(name, 1);
    }

    /// Counts so many more under a name.
    pub fn count_many(&mut self, name: &str, more: u64) {
        match self.counts.get_mut(name) {
            Some(count) => *count += more,
            None => drop(self.counts.insert(name.to_string(), more)),
        }
    }

    /// How often a name was counted.
    pub fn of(&self, name: &str) -> u64 {
        self.counts.get(name).copied().unwrap_or(0)
    }

    /// Keeps a sequence of so many calls under a name, unless one that is no longer is kept.
    pub fn keep_smallest(&mut self, name: &str, calls: usize, words: impl FnOnce() -> String) {
        if self.smallest.get(name).is_none_or(|kept| calls < kept.0) {
            self.smallest.insert(name.to_string(), (calls, words()));
        }
    }

    /// Notes a difference that nothing explains.
    pub fn differs(&mut self, words: String) {
        self.differences.push(words);
    }

    /// How many differences nothing explains.
    pub fn differ(&self) -> u64 {
        self.differences.len() as u64
    }

    /// All tallies in one. Where sequences are as short, the one of the first tally stays.
    pub fn joined(tallies: Vec<Tally>) -> Tally {
        let mut all = Tally::default();
        for tally in tallies {
            tally.counts.into_iter().for_each(|(name, count)| all.count_many(&name, count));
            tally.smallest.into_iter().for_each(|(name, (calls, words))| all.keep_smallest(&name, calls, || words));
            all.differences.extend(tally.differences);
        }
        all
    }

    /// Prints the counts, the smallest sequences, and the first differences.
    pub fn print(&self) {
        self.counts.iter().for_each(|(name, count)| println!("{name}: {count}"));
        self.smallest.iter().for_each(|(name, (calls, words))| println!("smallest, {name}: {calls} calls: {words}"));
        self.differences.iter().take(5).for_each(|words| println!("DIFFERS: {words}"));
    }
}

/// The port's answers, of so many numbers each, must be those expected: else the number of the first call that is not, and both answers.
pub fn same_answers<T: PartialEq>(answers: &[T], expected: &[T], width: usize, words: fn(&[T]) -> String) -> Result<(), (usize, String)> {
    for (k, (answer, expected)) in answers.chunks(width).zip(expected.chunks(width)).enumerate() {
        if answer != expected {
            return Err((k, format!("{} by the port, {} by document 01", words(answer), words(expected))));
        }
    }
    Ok(())
}

/// Lent numbers must be those expected.
pub fn same<T: PartialEq + Display>(numbers: &[T], expected: &[T], place: &str) -> Result<(), String> {
    match numbers.iter().zip(expected).position(|(number, expected)| number != expected) {
        Some(k) => Err(format!("{place}, number {k} is {} by the port, {} by document 01", numbers[k], expected[k])),
        None => Ok(()),
    }
}

/// Calls in words; one that is made many times over is said once.
pub fn listed<C: PartialEq + Display>(calls: impl Iterator<Item = C>) -> String {
    let mut runs = Vec::new();
    for call in calls {
        match runs.last_mut() {
            Some((last, times)) if *last == call => *times += 1,
            _ => runs.push((call, 1)),
        }
    }
    let words = |(call, times): &(C, usize)| match times {
        1..4 => vec![call.to_string(); *times].join(", "),
        _ => format!("{times} times {call}"),
    };
    runs.iter().map(words).collect::<Vec<String>>().join(", ")
}
