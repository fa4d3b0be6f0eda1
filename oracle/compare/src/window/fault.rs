//! The fault of the Rust that document 01's domain of equality leaves out, on the marked case `a b c`.
use super::model::{Answer, Call};
use super::script::{told, words};
use super::sequence::Sequence;
use super::through_port;
use crate::caught::caught;
use crate::random::Random;
use crate::row::Row;
use std::hint::black_box;

/// Document 01's case: the earliest bookmark is restored and removed while a later one lives; the nexts behind it go on to the end.
const CALLS: [Call; 12] = [
    Call::Bookmark,
    Call::Next,
    Call::Next,
    Call::Bookmark,
    Call::Restore(0),
    Call::Remove(0),
    Call::Next,
    Call::Next,
    Call::Next,
    Call::Next,
    Call::Next,
    Call::Next,
];

/// The call that the Rust fails at, and what must be answered.
const FAILS_AT: usize = 7;
const EXPECTED: Answer = Answer::Token([78, 1, 2]);

/// Shows the case.
pub fn fault() -> Row {
    let shown = show();
    if let Err(what) = &shown {
        println!("DIFFERS: {what}");
    }
    let (explained, differ) = (shown.is_ok() as u64, shown.is_err() as u64);
    Row { what: format!("fault, {}", build()), cases: 1, compared: CALLS.len() as u64, equal_whole: 0, explained, differ }
}

/// Prints the calls with the answers of both, up to where the Rust panics. The port must answer as document 01, the Rust otherwise from the
/// known call on.
fn show() -> Result<(), String> {
    let src = b"a b c";
    let mut sequence = Sequence::open(src, vec![0; 3 * 8]);
    CALLS.into_iter().for_each(|call| sequence.call(call));
    let port = through_port(&sequence, &mut Random::of_part(0, 0))?;
    let mut rust = rust::window::Window::open(src);
    let mut alike = 0;
    println!("`a b c`, {}: call | the port | the Rust", build());
    for (k, (call, port)) in CALLS.iter().zip(port.chunks(4)).enumerate() {
        let answer = call.asked_of(&mut rust);
        println!("{call} | {} | {}", words(port), told(answer));
        alike += (alike == k && answer.is_some_and(|answer| answer.numbers() == port)) as usize;
        if answer.is_none() {
            break;
        }
    }
    match &port[4 * FAILS_AT..4 * FAILS_AT + 4] {
        answer if answer != EXPECTED.numbers() => Err(sequence.at(FAILS_AT, &words(answer))),
        _ if alike != FAILS_AT => Err(format!("the Rust answers the first {alike} calls as the port")),
        _ => Ok(()),
    }
}

/// Whether this build checks overflow, in words.
fn build() -> &'static str {
    match caught(|| black_box(0_u8) - black_box(1)) {
        Some(_) => "overflow not checked",
        None => "overflow checked",
    }
}
