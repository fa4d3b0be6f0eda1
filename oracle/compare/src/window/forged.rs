//! Forged windows: one number changed at a time, the lengths of source and room, and several at once; each call on each of them against
//! document 01's record over the same numbers. The answer and every lent number are compared, and each clause of refusal 24 must have been
//! met alone.
use super::draw;
use super::live::ask;
use super::model::{Answer, Call};
use super::record::{BYTES, CLAUSES, CURRENT, FETCHED, LIVE, MODE, Numbers, PLACE, Record, SLOTS};
use super::script::words;
use super::sequence::{Plain, Sequence};
use crate::random::Random;
use crate::row::Row;
use crate::tally::{Forged, Tally, same};

/// Forged windows made of so many that random calls left.
pub fn forged(count: u64, seed: u64) -> Row {
    let mut tally = Tally::of_sequences(count, |number, tally| of_one(seed, number, tally));
    for length in [65_534, 65_535, 65_536] {
        longest(length, &mut tally);
    }
    tally.forged_row(format!("window forged {count} {seed}"), &CLAUSES)
}

/// A window, its source and its room.
#[derive(Clone)]
struct State {
    src: Vec<u8>,
    numbers: Numbers,
    room: Vec<u32>,
}

/// What random calls leave, forged in every way.
fn of_one(seed: u64, number: u64, tally: &mut Tally) {
    let random = &mut Random::of_part(seed, number);
    let state = left(random);
    let calls = calls(&state, random);
    let mut judge = |what: &dyn Fn() -> String, state: &State| judge(state, &calls, tally, &|| format!("{}, in window {number}", what()));
    judge(&|| "nothing forged".to_string(), &state);
    for k in 0..state.numbers.len() {
        for value in edges(&state, k) {
            let mut forged = state.clone();
            forged.numbers[k] = value;
            judge(&|| format!("number {k} is {value}"), &forged);
        }
    }
    for length in lengths(state.src.len(), 1) {
        let mut forged = state.clone();
        forged.src.resize(length, b'a');
        judge(&|| format!("a source of {length} bytes"), &forged);
        forged.numbers[BYTES] = length as u32;
        judge(&|| format!("a source of {length} bytes, and so says the window"), &forged);
    }
    for length in lengths(state.room.len(), 3) {
        let mut forged = state.clone();
        forged.room.resize(length, 7);
        judge(&|| format!("a room of {length} numbers"), &forged);
        forged.numbers[SLOTS] = length as u32 / 3;
        judge(&|| format!("a room of {length} numbers, and so says the window"), &forged);
    }
    for _ in 0..64 {
        let forged = several(&state, random);
        judge(&|| format!("several numbers: {:?}", forged.numbers), &forged);
    }
}

/// Where random calls on a random source leave a window of the port.
fn left(random: &mut Random) -> State {
    let src = draw::source(random);
    let mut sequence = Sequence::open(&src, draw::room(random, src.len().min(40)));
    draw::calls(random, &mut sequence);
    let mut window = port::window::Window([0; 72]);
    let mut room = sequence.lent.clone();
    window.open(&src, &room);
    // whether each answer is right is another comparison's matter
    sequence.steps.iter().for_each(|step| drop(ask(&mut window, &src, &mut room, step.call)));
    State { numbers: window.0, room, src }
}

/// Every call, with arguments that matter to a window.
fn calls(state: &State, random: &mut Random) -> Vec<Call> {
    let [first, current] = [0, CURRENT].map(|k| state.numbers[k]);
    let other = random.below(state.numbers[FETCHED] as usize + 2) as u32;
    let mut calls = vec![Call::Next, Call::HasMore, Call::Bookmark, Call::Pattern, Call::Jump, Call::Index];
    calls.extend([0, 1, 2, 7, 65_535, 1 << 32, usize::MAX].map(Call::Peek));
    calls.extend([first, current, other, u32::MAX].into_iter().flat_map(|index| [Call::Restore(index), Call::Remove(index)]));
    calls
}

/// The values that are put at a number: those around what stands there, and around what it is compared with.
fn edges(state: &State, k: usize) -> Vec<u32> {
    let numbers = &state.numbers;
    let near = |n: u32| [n.wrapping_sub(1), n, n.wrapping_add(1)];
    let mut values: Vec<u32> = near(numbers[k]).to_vec();
    values.extend([0, 1, 2, 3, 1 << 16, 1 << 31, u32::MAX]);
    let compared: &[usize] = match k {
        MODE | BYTES => &[],
        LIVE.. => &[CURRENT, FETCHED, PLACE, BYTES, SLOTS, LIVE],
        _ => &[CURRENT, FETCHED],
    };
    values.extend(compared.iter().flat_map(|&other| near(numbers[other])));
    match k {
        LIVE => values.extend([63, 64, 65]),
        BYTES | PLACE => values.extend([65_534, 65_535, 65_536]),
        CURRENT | FETCHED => values.extend(near(numbers[FETCHED].wrapping_sub(numbers[SLOTS]))),
        LIVE.. => {}
        _ => values.extend([k.wrapping_sub(1), k + 1].into_iter().filter(|&other| other < LIVE).flat_map(|other| near(numbers[other]))),
    }
    values.sort();
    values.dedup();
    values
}

/// Lengths around one that has so many to a slot.
fn lengths(length: usize, slot: usize) -> Vec<usize> {
    let less = (1..=slot).filter_map(|n| length.checked_sub(n));
    less.chain((1..=slot).map(|n| length + n)).chain([0, length / 2, 2 * length + 10]).collect()
}

/// Two or three changes: of numbers to what matters there, of the room's numbers, of the lengths.
fn several(state: &State, random: &mut Random) -> State {
    let mut forged = state.clone();
    for _ in 0..2 + random.below(2) {
        match random.below(8) {
            0 => forged.src.truncate(random.below(state.src.len() + 1)),
            1 => forged.room.iter_mut().for_each(|number| *number = random.below(1 << 32) as u32),
            _ => {
                let k = if random.below(3) == 0 { random.below(LIVE) } else { LIVE + random.below(8) };
                forged.numbers[k] = *random.one_of(&edges(state, k));
            }
        }
    }
    forged
}

/// A source of the greatest length, and those around it.
fn longest(length: usize, tally: &mut Tally) {
    let mut state = State { src: vec![b'='; length], numbers: [0; 72], room: vec![7; 3 * 4] };
    state.numbers[BYTES] = length as u32;
    state.numbers[SLOTS] = 4;
    let calls = [Call::Next, Call::Index, Call::Peek(3), Call::Peek(4), Call::Bookmark];
    judge(&state, &calls, tally, &|| format!("a source of {length} bytes"));
    state.numbers[PLACE] = length as u32;
    judge(&state, &[Call::Next, Call::Index, Call::HasMore], tally, &|| format!("at the end of {length} bytes"));
}

/// Makes each call on a forged window, by the port and by document 01's record.
fn judge(state: &State, calls: &[Call], tally: &mut Tally, what: &dyn Fn() -> String) {
    let mut forged = Forged::default();
    for &call in calls {
        let mut model = state.clone();
        let bytes = model.src.len();
        let mut record = Record { source: Plain(&state.src), bytes, numbers: &mut model.numbers, room: &mut model.room };
        let broken = record.broken();
        let answer = record.answer(call);
        let refusal = if let Answer::Refused(number) = answer { Some(number) } else { None };
        if let Err(found) = as_the_model(state, call, answer, &model) {
            forged.differ(format!("{call}: {found}, {}, source `{}`", what(), state.src.escape_ascii()));
        }
        forged.called(call.name(), refusal, &broken);
    }
    forged.tell(tally, &CLAUSES);
}

/// The port must answer as the model, and leave what the model leaves; the source is only read.
fn as_the_model(state: &State, call: Call, answer: Answer, model: &State) -> Result<(), String> {
    let mut window = port::window::Window(state.numbers);
    let mut room = state.room.clone();
    let given = ask(&mut window, &state.src, &mut room, call)?;
    if given != answer {
        return Err(format!("{} by the port, {} by document 01", words(&given.numbers()), words(&answer.numbers())));
    }
    same(&window.0, &model.numbers, "in the window")?;
    same(&room, &model.room, "in the room")
}
