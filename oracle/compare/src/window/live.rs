//! The port's window called one by one, beside document 01's record that drops no token: after each call the answer, the window's numbers
//! and the room must be the record's.
use super::model::{Answer, Call, Source, Window};
use super::record::{BYTES, CURRENT, FETCHED, LIVE, MODE, Numbers, PLACE, SLOTS};
use super::script::words;
use super::sequence::Sequence;
use crate::tally::same;
use port::{DONE, NONE, Tok};

/// What stands where a token or an index can be written.
const STOOD: u32 = 0xA5A5_5A5A;

/// Opens a window of the port over the room of a sequence and makes its calls one by one: the answers, four numbers each. The numbers that
/// stand where it is opened are of no meaning.
pub fn one_by_one(sequence: &Sequence, stood: Numbers) -> Result<Vec<u32>, String> {
    let mut record = Sequence::open(sequence.src, sequence.lent.clone());
    let mut room = sequence.lent.clone();
    let mut window = port::window::Window(stood);
    let refused = window.open(sequence.src, &room);
    if refused != DONE {
        return Err(format!("opening is refused by {refused}"));
    }
    let mut answers = Vec::new();
    for (k, step) in sequence.steps.iter().enumerate() {
        record.call(step.call);
        let answer = ask(&mut window, sequence.src, &mut room, step.call).map_err(|found| sequence.at(k, &found))?;
        if answer != step.answer {
            let (port, model) = (words(&answer.numbers()), words(&step.answer.numbers()));
            return Err(sequence.at(k, &format!("{port} by the port, {model} by document 01")));
        }
        let left = same(&window.0, &numbers(&record.window, sequence.src), "in the window");
        left.and_then(|()| same(&room, &record.window.room, "in the room")).map_err(|found| sequence.at(k, &found))?;
        answers.extend(answer.numbers());
    }
    Ok(answers)
}

/// The numbers of a window that has come to where the record stands.
fn numbers<S: Source>(record: &Window<S>, src: &[u8]) -> Numbers {
    let mut numbers = [0; 72];
    let mut marks: Vec<u32> = record.bookmarks.iter().map(|&index| index as u32).collect();
    marks.sort();
    numbers[..marks.len()].copy_from_slice(&marks);
    numbers[LIVE] = marks.len() as u32;
    numbers[BYTES] = src.len() as u32;
    numbers[SLOTS] = record.slots() as u32;
    numbers[PLACE] = record.place();
    numbers[MODE] = record.mode;
    numbers[FETCHED] = record.fetched.len() as u32;
    numbers[CURRENT] = record.current as u32;
    numbers
}

/// Makes one call of the port. What it is lent for a token or an index must stay where it finds none or is refused.
pub fn ask(window: &mut port::window::Window, src: &[u8], room: &mut [u32], call: Call) -> Result<Answer, String> {
    let mut token = Tok { kind: STOOD, start: STOOD, end: STOOD };
    let mut index = STOOD;
    let status = match call {
        Call::Next => window.next_token(src, room, &mut token),
        Call::Peek(n) => window.peek_token(src, room, n, &mut token),
        Call::HasMore => window.has_more(src, room),
        Call::Bookmark => window.bookmark(src, room, &mut index),
        Call::Restore(index) => window.restore_bookmark(src, room, index),
        Call::Remove(index) => window.remove_bookmark(src, room, index),
        Call::Pattern => window.enter_hex_pattern_mode(src, room),
        Call::Jump => window.enter_hex_jump_mode(src, room),
        Call::Index => window.current_token_index(src, room, &mut index),
    };
    let lent = [token.kind, token.start, token.end, index];
    if status != DONE && lent != [STOOD; 4] {
        return Err(format!("status {status}, and {lent:?} written where nothing is found"));
    }
    match (call, status) {
        (Call::HasMore, DONE | NONE) => Ok(Answer::Truth(status == DONE)),
        (Call::Next | Call::Peek(_), NONE) => Ok(Answer::None),
        (Call::Next | Call::Peek(_), DONE) => Ok(Answer::Token([token.kind, token.start, token.end])),
        (Call::Bookmark | Call::Index, DONE) => Ok(Answer::Index(index as usize)),
        (_, DONE) => Ok(Answer::Done),
        (_, NONE) => Err("none found, where no call can say so".to_string()),
        (_, number) => Ok(Answer::Refused(number)),
    }
}
