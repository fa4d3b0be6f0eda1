//! Sequences of calls on a window: the port against document 01's model, in every answer and every lent number, and against the Rust call
//! by call inside document 01's domain of equality.
mod draw;
mod fault;
mod model;
mod script;
mod sequence;
mod smallest;

use crate::random::Random;
use crate::row::Row;
use crate::tally::{Tally, same, same_answers};
pub use fault::fault;
use model::{Answer, Call};
use script::{told, words};
use sequence::{Sequence, Standing};
pub use smallest::smallest;

/// Random sequences.
pub fn random(count: u64, seed: u64) -> Row {
    let mut tally = Tally::of_sequences(count, |number, tally| random_sequence(seed, number, tally));
    if let Err(what) = borders() {
        tally.differs(what);
    }
    tally.row(format!("window random {count} {seed}"), count)
}

/// One random sequence, which its number and the seed decide.
fn random_sequence(seed: u64, number: u64, tally: &mut Tally) {
    let random = &mut Random::of_part(seed, number);
    let src = draw::source(random);
    let mut sequence = Sequence::open(&src, draw::room(random));
    draw::calls(random, &mut sequence);
    tally.count_calls(sequence.names());
    let found = through_port(&sequence, random).and_then(|answers| through_rust(&sequence, &answers, tally));
    if let Err(what) = found {
        tally.differs(format!("{what}, in sequence {number}, {}", sequence.words(sequence.steps.len())));
    }
}

/// Sources of the greatest length and of one byte more: taken, and refused by 1, before 15.
fn borders() -> Result<(), String> {
    let random = &mut Random::of_part(0, 0);
    let longest = vec![b'='; 65_535];
    let mut sequence = Sequence::open(&longest, random.numbers(3 * 8));
    [Call::Peek(8), Call::Peek(7), Call::Index].into_iter().for_each(|call| sequence.call(call));
    through_port(&sequence, random)?;
    let longer = vec![b'='; 65_536];
    let sequence = Sequence::open(&longer, random.numbers(3 * 8));
    [0, 3, 4, 5].into_iter().try_for_each(|room| refused_whole(&sequence, &[8, 0], random.numbers(room), 1))
}

/// Runs a sequence through the port, where every answer and every lent number must be the model's: the answers.
fn through_port(sequence: &Sequence, random: &mut Random) -> Result<Vec<u32>, String> {
    let mut script: Vec<u32> = sequence.steps.iter().flat_map(|step| step.call.numbers(random.below(1 << 32) as u32)).collect();
    script.extend((random.below(4) == 0).then_some(0));
    let expected: Vec<u32> = sequence.steps.iter().flat_map(|step| step.answer.numbers()).collect();
    if random.below(16) == 0 && !expected.is_empty() {
        refused_whole(sequence, &script, random.numbers(expected.len() - 1), 15)?;
    }
    let more = random.below(6);
    let behind = random.numbers(more);
    let mut room = sequence.lent.clone();
    let mut answers = [random.numbers(expected.len()), behind.clone()].concat();
    port::window(sequence.src, &script, &mut room, &mut answers).map_err(|number| format!("the port refuses the script by {number}"))?;
    same_answers(&answers, &expected, 4, words).map_err(|(k, found)| sequence.at(k, &found))?;
    same(&answers.split_off(expected.len()), &behind, "behind the answers")?;
    same(&room, &sequence.window.room, "in the room")?;
    Ok(answers)
}

/// The port must refuse the whole script by a number and leave what is lent as it was.
fn refused_whole(sequence: &Sequence, script: &[u32], lent: Vec<u32>, number: u32) -> Result<(), String> {
    let (mut room, mut answers) = (sequence.lent.clone(), lent.clone());
    let refused = port::window(sequence.src, script, &mut room, &mut answers);
    if refused != Err(number) {
        return Err(format!("{} numbers for the answers: the port gives {refused:?}, not refusal {number}", lent.len()));
    }
    same(&answers, &lent, "in the answers of a refused script")?;
    same(&room, &sequence.lent, "in the room of a refused script")
}

/// Puts the calls to the Rust as far as the domain reaches, where it must answer as the port; and looks at the call behind the domain's
/// edge.
fn through_rust(sequence: &Sequence, answers: &[u32], tally: &mut Tally) -> Result<(), String> {
    let mut rust = rust::window::Window::open(sequence.src);
    let (mut inside, mut edge, mut leaves) = (Vec::new(), None, None);
    for (k, step) in sequence.steps.iter().enumerate().filter(|(_, step)| step.standing != Standing::Refused) {
        leaves = step.standing.way_out();
        if leaves.is_some() {
            break;
        }
        let answer = step.call.asked_of(&mut rust);
        let port = &answers[4 * k..4 * k + 4];
        if let Some(least) = edge {
            behind_edge(sequence, k, least, answer, port, tally)?;
            break;
        }
        if !alike(answer, port) {
            return Err(sequence.at(k, &format!("{} by the port, {} by the Rust", words(port), told(answer))));
        }
        match step.standing {
            Standing::Edge(least) => edge = Some(least),
            _ => inside.push(step.call.name()),
        }
    }
    tally.count_inside(inside, leaves.or(edge.map(|_| "a next goes over the edge")));
    Ok(())
}

/// Whether the Rust answered as the port. Of a token that is 81 or 82 kind and start count.
fn alike(answer: Option<Answer>, port: &[u32]) -> bool {
    match (answer, port) {
        (Some(Answer::Token([kind, start, _])), port) if kind >= 81 => [1, kind, start] == port[..3],
        (Some(answer), port) => answer.numbers() == port,
        (None, _) => false,
    }
}

/// The call behind the edge: the Rust has purged up to the least bookmark, so it fails exactly where a token below that is wanted.
fn behind_edge(sequence: &Sequence, k: usize, least: usize, answer: Option<Answer>, port: &[u32], tally: &mut Tally) -> Result<(), String> {
    let purged = sequence.steps[k].wants.is_some_and(|wanted| wanted < least);
    let outcome = match answer {
        None => "behind the edge, the Rust panics",
        Some(_) if alike(answer, port) => "behind the edge, the Rust is right",
        Some(_) => "behind the edge, the Rust is wrong",
    };
    tally.count(outcome);
    if alike(answer, port) == purged {
        return Err(sequence.at(k, &format!("behind the edge, {} by the port, {} by the Rust", words(port), told(answer))));
    }
    Ok(())
}
