//! The event stream against the Rust's syntax stream. The unit is a call.
use crate::rounds::{Row, measure};
use rust::events::Events;
use std::hint::black_box;

/// A call of the event stream, with the numbers that it takes.
#[derive(Clone, Copy)]
enum Call {
    Token(u32, u32, u32),
    Begin(u32),
    End,
    Bookmark,
    Truncate(u32),
    Remove(u32),
    Pop,
}

/// How many nodes there are, and tokens in each.
const NODES: u32 = 1_500;
const TOKENS: u32 = 8;

/// How many events a node has, with its Begin and End.
const EVENTS: usize = TOKENS as usize + 2;

/// Some syntax kind.
const KIND: u32 = 5;

/// The numbers of a slot.
const SLOT: usize = 4;

/// A node with its tokens, then every event popped, and none behind them; the next node.
pub fn drained(what: &str) -> Row {
    let calls: Vec<Call> = (0..NODES).flat_map(|n| [node(n), vec![Call::Pop; EVENTS + 1]].concat()).collect();
    against(what, &calls, EVENTS + 2)
}

/// All nodes, then every event popped.
pub fn drained_at_last(what: &str) -> Row {
    let nodes = (0..NODES).flat_map(node);
    let events = EVENTS * NODES as usize;
    let calls: Vec<Call> = nodes.chain(std::iter::repeat_n(Call::Pop, events + 1)).collect();
    against(what, &calls, events + 1)
}

/// As the first, but behind each Begin a bookmark is made, half of the tokens are pushed and taken back, and the bookmark is removed.
pub fn taken_back(what: &str) -> Row {
    let calls: Vec<Call> = (0..NODES).flat_map(|n| [tried_node(n), vec![Call::Pop; EVENTS + 1]].concat()).collect();
    against(what, &calls, EVENTS + 2)
}

/// The calls that push the n-th node.
fn node(n: u32) -> Vec<Call> {
    [vec![Call::Begin(KIND)], tokens(n, TOKENS), vec![Call::End]].concat()
}

/// The same with a trial in front of the tokens.
fn tried_node(n: u32) -> Vec<Call> {
    let trial = [vec![Call::Bookmark], tokens(n, TOKENS / 2), vec![Call::Truncate(1), Call::Remove(1)]].concat();
    [vec![Call::Begin(KIND)], trial, tokens(n, TOKENS), vec![Call::End]].concat()
}

/// The first tokens of the n-th node, four bytes each.
fn tokens(n: u32, count: u32) -> Vec<Call> {
    (0..count).map(|t| (n * TOKENS + t) * 4).map(|start| Call::Token(KIND + 1, start, start + 4)).collect()
}

/// Calls through the port's event stream, against the same calls of the Rust.
fn against(what: &str, calls: &[Call], slots: usize) -> Row {
    let script: Vec<u32> = calls.iter().flat_map(|call| numbers(*call)).collect();
    let mut room = vec![0; SLOT * slots];
    let mut opens = [0];
    let mut answers = vec![0; 5 * calls.len()];
    let mut answers_of_the_rust = answers.clone();
    port::events(&script, &mut room, &mut opens, &mut answers).expect("answers");
    run(calls, &mut answers_of_the_rust);
    assert!(answers == answers_of_the_rust, "{what}: the answers differ");
    measure(
        what,
        calls.len(),
        || port::events(black_box(&script), &mut room, &mut opens, &mut answers).expect("answers"),
        || run(black_box(calls), &mut answers_of_the_rust),
    )
}

/// A call as the port's script has it.
fn numbers(call: Call) -> [u32; 4] {
    match call {
        Call::Token(kind, start, end) => [0, kind, start, end],
        Call::Begin(kind) => [2, kind, 0, 0],
        Call::End => [3, 0, 0, 0],
        Call::Bookmark => [5, 0, 0, 0],
        Call::Truncate(position) => [6, position, 0, 0],
        Call::Remove(position) => [7, position, 0, 0],
        Call::Pop => [8, 0, 0, 0],
    }
}

/// The calls of the Rust, one after the other, and their answers in the port's numbers.
fn run(calls: &[Call], answers: &mut [usize]) {
    let mut events = Events::open();
    for (call, answer) in calls.iter().zip(answers.chunks_exact_mut(5)) {
        answer.copy_from_slice(&answered(&mut events, *call));
    }
}

/// One call of the Rust.
fn answered(events: &mut Events, call: Call) -> [usize; 5] {
    const DONE: [usize; 5] = [4, 0, 0, 0, 0];
    match call {
        Call::Token(kind, start, end) => events.token(kind, start, end),
        Call::Begin(kind) => events.begin(kind),
        Call::End => events.end(),
        Call::Truncate(position) => events.truncate(position as usize),
        Call::Remove(position) => events.remove(position as usize),
        Call::Bookmark => return [3, events.bookmark(), 0, 0, 0],
        Call::Pop => return events.pop().map_or([0; 5], told),
    }
    DONE
}

/// An event that was popped, as numbers.
fn told([tag, kind, start, end]: [u32; 4]) -> [usize; 5] {
    [1, tag as usize, kind as usize, start as usize, end as usize]
}
