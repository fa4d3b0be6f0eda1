//! The window against the Rust's token stream. The unit is a call.
use crate::rounds::{Row, measure};
use port::Tok;
use rust::window::Window;
use std::hint::black_box;

/// The numbers of the calls, of the answers and of a slot.
const NEXT: u32 = 0;
const PEEK: u32 = 1;
const BOOKMARK: u32 = 3;
const RESTORE: u32 = 4;
const REMOVE: u32 = 5;
const TOKEN: u32 = 1;
const INDEX: u32 = 3;
const DONE: u32 = 4;
const SLOT: usize = 3;

/// How far the parser that tries peeks.
const PEEKS: usize = 4;

/// Every token by next, and none behind the last.
pub fn nexts(what: &str, src: &[u8], slots: usize) -> Row {
    let script = [NEXT, 0].repeat(count(src) + 1);
    against(what, src, slots, &script, |window, mut answers| {
        while !answers.is_empty() {
            answers = put(answers, told(window.next()));
        }
    })
}

/// At each token a bookmark, a few peeks, next twice, back to the bookmark, the bookmark removed, next.
pub fn tries(what: &str, src: &[u8], slots: usize) -> Row {
    let script: Vec<u32> = (0..count(src) as u32).flat_map(trial).collect();
    against(what, src, slots, &script, |window, mut answers| {
        while !answers.is_empty() {
            answers = try_once(window, answers);
        }
    })
}

/// The calls of a trial at the token with this index.
fn trial(index: u32) -> Vec<u32> {
    let peeks = (0..PEEKS as u32).flat_map(|n| [PEEK, n]);
    [BOOKMARK, 0].into_iter().chain(peeks).chain([NEXT, 0, NEXT, 0, RESTORE, index, REMOVE, index, NEXT, 0]).collect()
}

/// The same calls of the Rust.
fn try_once<'a>(window: &mut Window, mut answers: &'a mut [u32]) -> &'a mut [u32] {
    let mark = window.bookmark();
    answers = put(answers, [INDEX, mark as u32, 0, 0]);
    for n in 0..PEEKS {
        answers = put(answers, told(window.peek(n)));
    }
    answers = put(answers, told(window.next()));
    answers = put(answers, told(window.next()));
    window.restore(mark);
    answers = put(answers, [DONE, 0, 0, 0]);
    window.remove(mark);
    answers = put(answers, [DONE, 0, 0, 0]);
    put(answers, told(window.next()))
}

/// A script through the port's window, against the same calls of the Rust, which fill the answers.
fn against(what: &str, src: &[u8], slots: usize, script: &[u32], calls: impl Fn(&mut Window, &mut [u32])) -> Row {
    let mut room = vec![0; SLOT * slots];
    let mut answers = vec![0; script.len() * 2];
    let mut answers_of_the_rust = answers.clone();
    port::window(src, script, &mut room, &mut answers).expect("answers");
    calls(&mut Window::open(src), &mut answers_of_the_rust);
    assert!(answers == answers_of_the_rust, "{what}: the answers differ");
    measure(
        what,
        script.len() / 2,
        || port::window(black_box(src), script, &mut room, &mut answers).expect("answers"),
        || calls(&mut Window::open(black_box(src)), &mut answers_of_the_rust),
    )
}

/// How many tokens a source has.
fn count(src: &[u8]) -> usize {
    rust::Tokens::open(src).count()
}

/// What next and peek answer, as numbers.
fn told(token: Option<Tok>) -> [u32; 4] {
    token.map_or([0; 4], |token| [TOKEN, token.kind, token.start, token.end])
}

/// Writes an answer, and gives the places behind it.
fn put(answers: &mut [u32], answer: [u32; 4]) -> &mut [u32] {
    let (place, behind) = answers.split_first_chunk_mut().expect("a place for each answer");
    *place = answer;
    behind
}
