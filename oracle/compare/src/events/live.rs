//! The port's event stream called one by one, beside document 01's list of events: after each call the answer, the stream's numbers and
//! both rooms must be the list's.
use super::model::{Answer, Call, Stream};
use super::record::{BOOKMARKS, COUNT, FRONT, GONE, LAST, Numbers, OPENED, PLACES, POPPED, SLOTS};
use super::script::words;
use super::sequence::Sequence;
use crate::tally::same;
use port::{DONE, NONE};

/// What stands where an event or a position can be written.
const STOOD: u32 = 0xA5A5_5A5A;

/// Opens a stream of the port over the rooms of a sequence and makes its calls one by one: the answers, five numbers each. The numbers that
/// stand where it is opened are of no meaning.
pub fn one_by_one(sequence: &Sequence, stood: Numbers) -> Result<Vec<usize>, String> {
    let (mut room, mut places) = sequence.lent.clone();
    let mut list = Sequence::open(room.clone(), places.clone());
    let mut events = port::events::Events(stood);
    let refused = events.open(&room, &places);
    if refused != DONE {
        return Err(format!("opening is refused by {refused}"));
    }
    let mut answers = Vec::new();
    for (k, step) in sequence.steps.iter().enumerate() {
        list.call(step.call);
        let answer = ask(&mut events, &mut room, &mut places, step.call).map_err(|found| sequence.at(k, &found))?;
        if answer != step.answer {
            let (port, model) = (words(&answer.numbers()), words(&step.answer.numbers()));
            return Err(sequence.at(k, &format!("{port} by the port, {model} by document 01")));
        }
        same(&events.0, &numbers(&list.stream), "in the stream")
            .and_then(|()| same(&room, &list.stream.room, "in the ring"))
            .and_then(|()| same(&places, &list.stream.places, "in the open places"))
            .map_err(|found| sequence.at(k, &found))?;
        answers.extend(answer.numbers());
    }
    Ok(answers)
}

/// The numbers of a stream that has come to where the list stands.
fn numbers(list: &Stream) -> Numbers {
    let mut numbers = [0; 16];
    numbers[SLOTS] = list.slots() as u32;
    numbers[PLACES] = list.places.len() as u32;
    numbers[FRONT] = list.front as u32;
    numbers[COUNT] = list.events.len() as u32;
    numbers[OPENED] = list.open.len() as u32;
    numbers[BOOKMARKS] = list.bookmarks as u32;
    numbers[LAST..LAST + 2].copy_from_slice(&list.last);
    numbers[GONE..GONE + 2].copy_from_slice(&list.popped.unwrap_or([0, 0]));
    numbers[POPPED] = list.any_popped as u32;
    numbers
}

/// Makes one call of the port. What it is lent for an event or a position must stay where it finds none or is refused.
pub fn ask(events: &mut port::events::Events, room: &mut [u32], places: &mut [usize], call: Call) -> Result<Answer, String> {
    let mut event = [STOOD; 4];
    let mut position = STOOD as usize;
    let status = match call {
        Call::Token(kind, [start, end]) => events.push_token(room, places, kind as u16, start, end),
        Call::Error(message, [start, end]) => events.push_error(room, places, message as u16, start, end),
        Call::Begin(kind) => events.begin(room, places, kind as u16),
        Call::End => events.end(room, places),
        Call::EndWithError => events.end_with_error(room, places),
        Call::Bookmark => events.bookmark(room, places, &mut position),
        Call::Truncate(position) => events.truncate(room, places, position),
        Call::Remove(position) => events.remove_bookmark(room, places, position),
        Call::Pop => events.pop(room, places, &mut event),
    };
    if status != DONE && (event, position) != ([STOOD; 4], STOOD as usize) {
        return Err(format!("status {status}, and {event:?} or {position} written where nothing is found"));
    }
    match (call, status) {
        (Call::Pop, DONE) => Ok(Answer::Event(event)),
        (Call::Pop, NONE) => Ok(Answer::None),
        (Call::Bookmark, DONE) => Ok(Answer::Position(position)),
        (_, DONE) => Ok(Answer::Done),
        (_, NONE) => Err("none found, where no call can say so".to_string()),
        (_, number) => Ok(Answer::Refused(number)),
    }
}
