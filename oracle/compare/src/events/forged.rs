//! Forged event streams: one number changed at a time, the lengths of both rooms, the last open place, and several at once; each call on
//! each of them against document 01's record over the same numbers. The answer and every lent number are compared, and each clause of
//! refusal 24 must have been met alone.
use super::draw;
use super::live::ask;
use super::model::{Answer, Call};
use super::record::{BOOKMARKS, CLAUSES, COUNT, FRONT, GONE, LAST, Numbers, OPENED, PLACES, POPPED, Record, SLOTS};
use super::script::words;
use super::sequence::Sequence;
use crate::random::Random;
use crate::row::Row;
use crate::tally::{Forged, Tally, same};

/// Forged streams made of so many that random calls left.
pub fn forged(count: u64, seed: u64) -> Row {
    let tally = Tally::of_sequences(count, |number, tally| of_one(seed, number, tally));
    tally.forged_row(format!("events forged {count} {seed}"), &CLAUSES)
}

/// A stream and its rooms.
#[derive(Clone)]
struct State {
    numbers: Numbers,
    room: Vec<u32>,
    places: Vec<usize>,
}

impl State {
    /// A number of 64 bits.
    fn wide(&self, k: usize) -> usize {
        (self.numbers[k] as u64 | (self.numbers[k + 1] as u64) << 32) as usize
    }
}

/// What random calls leave, forged in every way.
fn of_one(seed: u64, number: u64, tally: &mut Tally) {
    let random = &mut Random::of_part(seed, number);
    let state = left(random);
    let calls = calls(&state, random);
    let mut judge = |what: &dyn Fn() -> String, state: &State| judge(state, &calls, tally, &|| format!("{}, in stream {number}", what()));
    judge(&|| "nothing forged".to_string(), &state);
    for k in 0..state.numbers.len() {
        for value in edges(&state, k) {
            let mut forged = state.clone();
            forged.numbers[k] = value;
            judge(&|| format!("number {k} is {value}"), &forged);
        }
    }
    for length in lengths(state.room.len(), 4) {
        let mut forged = state.clone();
        forged.room.resize(length, 0);
        judge(&|| format!("a ring of {length} numbers"), &forged);
        forged.numbers[SLOTS] = length as u32 / 4;
        judge(&|| format!("a ring of {length} numbers, and so says the stream"), &forged);
    }
    for length in lengths(state.places.len(), 1) {
        let mut forged = state.clone();
        forged.places.resize(length, 0);
        judge(&|| format!("{length} open places"), &forged);
        forged.numbers[PLACES] = length as u32;
        judge(&|| format!("{length} open places, and so says the stream"), &forged);
    }
    if let Some(inner) = state.wide(OPENED).checked_sub(1) {
        let count = state.wide(COUNT);
        for position in [0, 1, count.wrapping_sub(1), count, count + 1, usize::MAX, usize::MAX - 1, random.below(count + 1)] {
            let mut forged = state.clone();
            forged.places[inner] = position;
            judge(&|| format!("the last open place is {position}"), &forged);
        }
    }
    for _ in 0..64 {
        let forged = several(&state, random);
        judge(&|| format!("several numbers: {:?}", forged.numbers), &forged);
    }
}

/// Where random calls leave a stream of the port; the rooms are small.
fn left(random: &mut Random) -> State {
    let (slots, places, more) = (random.below(24), random.below(6), random.below(4));
    let room = random.numbers(4 * slots + more);
    let places: Vec<usize> = random.numbers(places).into_iter().map(|number| number as usize).collect();
    let mut sequence = Sequence::open(room, places);
    draw::Manner::draw(random).calls(random, &mut sequence);
    let (mut room, mut places) = sequence.lent.clone();
    let mut events = port::events::Events([0; 16]);
    events.open(&room, &places);
    // whether each answer is right is another comparison's matter; where the sequence is cut, a node is open more often than at its end
    let cut = random.below(sequence.steps.len() + 1);
    sequence.steps.iter().take(cut).for_each(|step| drop(ask(&mut events, &mut room, &mut places, step.call)));
    State { numbers: events.0, room, places }
}

/// Every call, with arguments that matter to a stream.
fn calls(state: &State, random: &mut Random) -> Vec<Call> {
    let end = state.numbers[LAST + 1];
    let other = random.below(state.wide(COUNT) + 1);
    let mut calls = vec![Call::Begin(7), Call::Begin(65_535), Call::End, Call::EndWithError, Call::Bookmark, Call::Pop];
    let spans = [[end, end], [end, end + 1], [1, 0], [3, 65_535], [3, 65_536]];
    calls.extend(spans.into_iter().flat_map(|span| [Call::Token(9, span), Call::Error(300, span)]));
    let positions = [0, 1, other, state.wide(COUNT), state.wide(COUNT) + 1, usize::MAX];
    calls.extend(positions.into_iter().flat_map(|position| [Call::Truncate(position), Call::Remove(position)]));
    calls
}

/// The values that are put at a number: those around what stands there, and around what it is compared with.
fn edges(state: &State, k: usize) -> Vec<u32> {
    let numbers = &state.numbers;
    let near = |n: u32| [n.wrapping_sub(1), n, n.wrapping_add(1)];
    let mut values: Vec<u32> = near(numbers[k]).to_vec();
    values.extend([0, 1, 2, 1 << 31, u32::MAX]);
    match k {
        FRONT | COUNT | OPENED => {
            values.extend([SLOTS, PLACES, COUNT, OPENED].into_iter().flat_map(|other| near(numbers[other])));
            values.extend(near(numbers[SLOTS].wrapping_sub(numbers[COUNT])));
            values.extend(near(numbers[SLOTS].wrapping_sub(numbers[OPENED])));
        }
        BOOKMARKS => values.extend([65_534, 65_535, 65_536]),
        LAST.. if k < POPPED => values.extend([numbers[LAST + 1], numbers[GONE + 1], 65_535, 65_536]),
        _ => {}
    }
    values.sort();
    values.dedup();
    values
}

/// Lengths around one that has so many to a slot.
fn lengths(length: usize, slot: usize) -> Vec<usize> {
    let less = (1..=slot).filter_map(|n| length.checked_sub(n));
    less.chain((1..=slot).map(|n| length + n)).chain([0, length / 2, 2 * length + 10]).collect()
}

/// Two or three changes: of numbers to what matters there, of the rooms' numbers.
fn several(state: &State, random: &mut Random) -> State {
    let mut forged = state.clone();
    for _ in 0..2 + random.below(2) {
        match random.below(8) {
            0 => forged.room.iter_mut().for_each(|number| *number = random.below(6) as u32),
            1 => forged.places.iter_mut().for_each(|place| *place = random.below(6)),
            _ => {
                let k = random.below(state.numbers.len());
                forged.numbers[k] = *random.one_of(&edges(state, k));
            }
        }
    }
    forged
}

/// Makes each call on a forged stream, by the port and by document 01's record.
fn judge(state: &State, calls: &[Call], tally: &mut Tally, what: &dyn Fn() -> String) {
    let mut forged = Forged::default();
    for &call in calls {
        let mut model = state.clone();
        let mut record = Record { numbers: &mut model.numbers, room: &mut model.room, places: &mut model.places };
        let broken = record.broken();
        let answer = record.answer(call);
        let refusal = if let Answer::Refused(number) = answer { Some(number) } else { None };
        if let Err(found) = as_the_model(state, call, answer, &model) {
            forged.differ(format!("{call}: {found}, {}", what()));
        }
        forged.called(call.name(), refusal, &broken);
    }
    forged.tell(tally, &CLAUSES);
}

/// The port must answer as the model, and leave what the model leaves.
fn as_the_model(state: &State, call: Call, answer: Answer, model: &State) -> Result<(), String> {
    let mut events = port::events::Events(state.numbers);
    let (mut room, mut places) = (state.room.clone(), state.places.clone());
    let given = ask(&mut events, &mut room, &mut places, call)?;
    if given != answer {
        return Err(format!("{} by the port, {} by document 01", words(&given.numbers()), words(&answer.numbers())));
    }
    same(&events.0, &model.numbers, "in the stream")?;
    same(&room, &model.room, "in the ring")?;
    same(&places, &model.places, "in the open places")
}
