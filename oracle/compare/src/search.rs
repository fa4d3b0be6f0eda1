//! Every short sequence of calls, in search of the smallest one for each kind of difference.
use crate::parts::in_parts;
use crate::random::Random;
use crate::row::Row;
use crate::tally::Tally;

/// Counts of a search.
const SEQUENCES: &str = "sequences";
const CALLS: &str = "calls";
const EQUAL: &str = "equal to the Rust";

/// Where sequences are searched, with which calls, and how deep.
pub trait Search: Sync {
    type Call: Copy;

    /// How many calls a sequence has at most.
    fn most(&self) -> usize;

    /// What can be called behind these calls.
    fn choices(&self, calls: &[Self::Call]) -> Vec<Self::Call>;

    /// Compares a sequence, whose calls but the last one are answered alike by both: whether the last one is too. Where it is not, the
    /// tally keeps the sequence under what explains it, or the error says what nothing explains.
    fn judge(&self, calls: &[Self::Call], random: &mut Random, tally: &mut Tally) -> Result<bool, String>;

    /// A sequence in words.
    fn words(&self, calls: &[Self::Call]) -> String;
}

/// Goes through every sequence of each search, and one that is longer.
pub fn smallest<S: Search>(what: &str, searches: &[S], longer: &[S::Call]) -> Row {
    let tallies = in_parts(
        searches.len() as u64,
        || (),
        |(), part| {
            let mut tally = Tally::default();
            extend(&searches[part as usize], &mut Vec::new(), &mut Random::of_part(0, part), &mut tally);
            tally
        },
    );
    let mut tally = Tally::joined(tallies);
    noted(&searches[0], longer, &mut Random::of_part(0, 0), &mut tally);
    tally.print();
    let (cases, equal_whole, differ) = (tally.of(SEQUENCES), tally.of(EQUAL), tally.differ());
    Row { what: what.to_string(), cases, compared: tally.of(CALLS), equal_whole, explained: cases - equal_whole - differ, differ }
}

/// Every sequence that begins with these calls.
fn extend<S: Search>(search: &S, calls: &mut Vec<S::Call>, random: &mut Random, tally: &mut Tally) {
    for call in search.choices(calls) {
        calls.push(call);
        if noted(search, calls, random, tally) && calls.len() < search.most() {
            extend(search, calls, random, tally);
        }
        calls.pop();
    }
}

/// Compares a sequence and notes what was found: whether both sides go on alike.
fn noted<S: Search>(search: &S, calls: &[S::Call], random: &mut Random, tally: &mut Tally) -> bool {
    tally.count(SEQUENCES);
    tally.count_many(CALLS, calls.len() as u64);
    match search.judge(calls, random, tally) {
        Ok(equal) => {
            tally.count_many(EQUAL, equal as u64);
            equal
        }
        Err(what) => {
            tally.differs(format!("{what}, in {}", search.words(calls)));
            false
        }
    }
}
