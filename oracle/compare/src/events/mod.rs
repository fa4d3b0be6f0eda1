//! Sequences of calls on an event stream: the port against document 01's model, in every answer and every lent number, and against the Rust
//! call by call inside document 01's domain of equality.
mod draw;
mod model;
mod script;
mod sequence;
mod smallest;

use crate::random::Random;
use crate::row::Row;
use crate::tally::{Tally, same, same_answers};
use model::{Answer, Call};
use script::{told, words};
use sequence::{Outside, Sequence, Standing};
pub use smallest::smallest;

/// Random sequences.
pub fn random(count: u64, seed: u64) -> Row {
    let mut tally = Tally::of_sequences(count, |number, tally| random_sequence(seed, number, tally));
    most_bookmarks(&mut tally);
    tally.row(format!("events random {count} {seed}"), count + 1)
}

/// One random sequence, which its number and the seed decide.
fn random_sequence(seed: u64, number: u64, tally: &mut Tally) {
    let random = &mut Random::of_part(seed, number);
    let (room, places) = draw::rooms(random);
    let mut sequence = Sequence::open(room, places);
    draw::Manner::draw(random).calls(random, &mut sequence);
    let tried = (random.below(8) == 0).then(|| *random.one_of(&[5, 6, 7, 8, 9, 10, 11]));
    judge(&format!("sequence {number}"), &sequence, tried, random, tally);
}

/// A sequence with as many bookmarks as can live, and two more.
fn most_bookmarks(tally: &mut Tally) {
    let mut sequence = Sequence::open(vec![1; 4], vec![1]);
    (0..65_537).for_each(|_| sequence.call(Call::Bookmark));
    [Call::Remove(0), Call::Bookmark, Call::Bookmark, Call::Pop].into_iter().for_each(|call| sequence.call(call));
    judge("the sequence of bookmarks", &sequence, Some(3), &mut Random::of_part(0, 0), tally);
}

/// Compares a sequence with the port and with the Rust.
fn judge(name: &str, sequence: &Sequence, tried: Option<u32>, random: &mut Random, tally: &mut Tally) {
    tally.count_calls(sequence.names());
    let found = through_port(sequence, random).and_then(|answers| through_rust(sequence, &answers, tried, tally));
    if let Err(what) = found {
        tally.differs(format!("{what}, in {name}, {}", sequence.words(sequence.steps.len())));
    }
}

/// Runs a sequence through the port, where every answer and every lent number must be the model's: the answers.
fn through_port(sequence: &Sequence, random: &mut Random) -> Result<Vec<usize>, String> {
    let mut script: Vec<u32> = sequence.steps.iter().flat_map(|step| step.call.numbers(random.below(1 << 32) as u32)).collect();
    script.extend([0, 1, 2].into_iter().take(random.below(4)));
    let expected: Vec<usize> = sequence.steps.iter().flat_map(|step| step.answer.numbers()).collect();
    if random.below(16) == 0 && !expected.is_empty() {
        refused_whole(sequence, &script, expected.len() - 1)?;
    }
    let behind = vec![9; random.below(7)];
    let (mut room, mut places) = sequence.lent.clone();
    let mut answers = [vec![7; expected.len()], behind.clone()].concat();
    port::events(&script, &mut room, &mut places, &mut answers).map_err(|number| format!("the port refuses the script by {number}"))?;
    same_answers(&answers, &expected, 5, words).map_err(|(k, found)| sequence.at(k, &found))?;
    same(&answers.split_off(expected.len()), &behind, "behind the answers")?;
    same(&room, &sequence.stream.room, "in the ring")?;
    same(&places, &sequence.stream.places, "in the open places")?;
    Ok(answers)
}

/// With one number too few for the answers the port must refuse the whole script by 15 and leave what is lent as it was.
fn refused_whole(sequence: &Sequence, script: &[u32], numbers: usize) -> Result<(), String> {
    let (mut room, mut places) = sequence.lent.clone();
    let mut answers = vec![9; numbers];
    let refused = port::events(script, &mut room, &mut places, &mut answers);
    if refused != Err(15) {
        return Err(format!("{numbers} numbers for the answers: the port gives {refused:?}, not refusal 15"));
    }
    same(&answers, &vec![9; numbers], "in the answers of a refused script")?;
    same(&room, &sequence.lent.0, "in the ring of a refused script")?;
    same(&places, &sequence.lent.1, "in the open places of a refused script")
}

/// Puts the calls to the Rust. Inside the domain it must answer as the port; from where the domain is left, as the model that forgets the
/// last token popped. The first call that is refused by the number tried is put to it too, and ends the comparison.
fn through_rust(sequence: &Sequence, answers: &[usize], tried: Option<u32>, tally: &mut Tally) -> Result<(), String> {
    let mut rust = rust::events::Events::open();
    let (mut inside, mut left, mut apart) = (Vec::new(), None, false);
    for (k, step) in sequence.steps.iter().enumerate() {
        match step.standing {
            Standing::Refused(number) if step.native && left.is_none() && tried == Some(number) => {
                left = Some(Outside::Tried);
                tally.count(&refused_there(number, step.call.asked_of(&mut rust))?);
            }
            Standing::Refused(_) => continue,
            Standing::Outside(outside) => left = left.or(Some(outside)),
            Standing::Inside => {}
        }
        if let Some(Outside::Tried | Outside::Foreign) = left {
            break;
        }
        let answer = step.call.asked_of(&mut rust);
        let port = &answers[5 * k..5 * k + 5];
        let is_port = answer.is_some_and(|answer| answer.numbers() == port);
        let explained = if left == Some(Outside::Forgets) { answer == Some(step.forgetful) } else { is_port };
        match left {
            _ if !explained => return Err(sequence.at(k, &format!("{} by the port, {} by the Rust", words(port), told(answer)))),
            None => inside.push(step.call.name()),
            Some(_) if is_port => tally.count("outside the domain, equal to the Rust"),
            Some(_) => apart = true,
        }
    }
    tally.count_inside(inside, left.map(Outside::words));
    tally.count_many("sequences where the Rust has forgotten the last token popped, and it shows", apart as u64);
    Ok(())
}

/// What the Rust does with a call that is refused here by a number, which is to be counted: it must panic where 6, 9 or 10 stand, and
/// take what the others refuse.
fn refused_there(number: u32, answer: Option<Answer>) -> Result<String, String> {
    let name = format!("refused {number:2} here, {} there", if answer.is_some() { "taken" } else { "a panic" });
    let panics = [6, 9, 10].contains(&number);
    if panics == answer.is_none() { Ok(name) } else { Err(name) }
}
