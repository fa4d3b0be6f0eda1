//! Every short sequence of calls: the smallest one where port and Rust differ, for each kind of difference.
use super::model::{Answer, BEGIN, Call, END};
use super::script::{told, words};
use super::sequence::{Outside, Sequence, Standing};
use super::{refused_there, through_port};
use crate::random::Random;
use crate::row::Row;
use crate::search::{self, Search};
use crate::tally::{Tally, listed};

/// Calls that name no bookmark.
const ALL: &[Call] = &[
    Call::Token(1, [0, 1]),
    Call::Token(2, [1, 2]),
    Call::Token(1, [1, 0]),
    Call::Error(3, [0, 1]),
    Call::Begin(5),
    Call::End,
    Call::EndWithError,
    Call::Bookmark,
    Call::Pop,
];

/// Of them those that a token, a node and a bookmark take.
const FEW: &[Call] = &[Call::Token(1, [0, 1]), Call::Begin(5), Call::End, Call::Bookmark, Call::Pop];

/// The searches: too little room, and ample room.
const SEARCHES: [Streams; 6] = [
    Streams { slots: 0, places: 0, alphabet: ALL, most: 4 },
    Streams { slots: 1, places: 1, alphabet: ALL, most: 4 },
    Streams { slots: 2, places: 1, alphabet: ALL, most: 5 },
    Streams { slots: 4, places: 1, alphabet: ALL, most: 5 },
    Streams { slots: 16, places: 8, alphabet: ALL, most: 7 },
    Streams { slots: 16, places: 8, alphabet: FEW, most: 8 },
];

/// Sequences with so many slots and places.
struct Streams {
    slots: usize,
    places: usize,
    alphabet: &'static [Call],
    most: usize,
}

/// All short sequences, and the one that has a bookmark too many.
pub fn smallest() -> Row {
    search::smallest("events smallest", &SEARCHES, &[Call::Bookmark; 65_536])
}

impl Streams {
    /// The sequence of these calls.
    fn sequence(&self, calls: &[Call]) -> Sequence {
        let mut sequence = Sequence::open(vec![7; 4 * self.slots], vec![7; self.places]);
        calls.iter().for_each(|&call| sequence.call(call));
        sequence
    }
}

impl Search for Streams {
    type Call = Call;

    fn most(&self) -> usize {
        self.most
    }

    fn choices(&self, calls: &[Call]) -> Vec<Call> {
        let mut live = self.sequence(calls).bookmarks;
        live.sort();
        live.dedup();
        let named = live.into_iter().flat_map(|position| [Call::Truncate(position), Call::Remove(position)]);
        self.alphabet.iter().copied().chain(named).collect()
    }

    fn judge(&self, calls: &[Call], random: &mut Random, tally: &mut Tally) -> Result<bool, String> {
        let sequence = self.sequence(calls);
        let answers = through_port(&sequence, random)?;
        let mut rust = rust::events::Events::open();
        let answer = calls.iter().map(|call| call.asked_of(&mut rust)).last().flatten();
        let port = &answers[answers.len() - 5..];
        let left = |outside| sequence.steps.iter().any(|step| step.standing == Standing::Outside(outside));
        if answer.is_some_and(|answer| answer.numbers() == port) {
            tally.count_many(&format!("equal to the Rust, though {}", Outside::Overlaps.words()), left(Outside::Overlaps) as u64);
            return Ok(true);
        }
        let apart = format!("{} there, {} here", told(answer), words(port));
        let step = &sequence.steps[calls.len() - 1];
        let rule = match step.standing {
            Standing::Refused(number) => refused_there(number, answer)?,
            _ if left(Outside::Forgets) && answer == Some(step.forgetful) => Outside::Forgets.words().to_string(),
            _ => return Err(apart),
        };
        if step.standing == Standing::Refused(8) {
            behind_truncation(&rule, &mut calls.to_vec(), &sequence.bookmarks, self.most, tally);
        }
        tally.count(&rule);
        tally.keep_smallest(&rule, calls.len(), || format!("{}: {apart}", self.words(calls)));
        Ok(false)
    }

    fn words(&self, calls: &[Call]) -> String {
        self.sequence(calls).words(calls.len())
    }
}

/// What the Rust comes to when it has taken a truncation that is refused here: an end that panics, or popped events that do not balance.
fn behind_truncation(rule: &str, calls: &mut Vec<Call>, bookmarks: &[usize], most: usize, tally: &mut Tally) {
    note_popped(rule, calls, bookmarks, tally);
    if calls.len() == most {
        return;
    }
    for call in [Call::End, Call::EndWithError, Call::Begin(6), Call::Token(3, [1, 2])] {
        calls.push(call);
        let mut rust = rust::events::Events::open();
        match calls.iter().map(|call| call.asked_of(&mut rust)).last().flatten() {
            Some(_) => behind_truncation(rule, calls, bookmarks, most, tally),
            None => tally.keep_smallest(&format!("{rule}, then a panic at {}", call.name()), calls.len(), || listed(calls.iter())),
        }
        calls.pop();
    }
}

/// Removes the Rust's bookmarks and pops its events, and notes where these do not balance.
fn note_popped(rule: &str, calls: &[Call], bookmarks: &[usize], tally: &mut Tally) {
    let removes = bookmarks.iter().map(|&position| Call::Remove(position));
    let mut all: Vec<Call> = calls.iter().copied().chain(removes).collect();
    let mut rust = rust::events::Events::open();
    if all.iter().any(|call| call.asked_of(&mut rust).is_none()) {
        return;
    }
    let mut tags = Vec::new();
    while let Some(Answer::Event([tag, ..])) = Call::Pop.asked_of(&mut rust) {
        tags.push(tag);
        all.push(Call::Pop);
    }
    let count = |wanted| tags.iter().filter(|&&tag| tag == wanted).count();
    let missing = match (count(BEGIN), count(END)) {
        (begins, ends) if begins < ends => "an End without a Begin",
        (begins, ends) if begins > ends => "a Begin without an End",
        _ => return,
    };
    tally.keep_smallest(&format!("{rule}, then {missing} popped"), all.len(), || format!("{}: tags {tags:?}", listed(all.iter())));
}
