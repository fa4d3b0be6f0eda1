//! Cases of the program `event_cases`: recorded sequences of calls, with the room that is lent for each.
use crate::standing::Standing;

/// Room that no sequence needs: so many numbers of event slots, and open places.
const AMPLE: (usize, usize) = (4096, 256);

/// A run of a sequence: what is remarked of it, how many numbers and places are lent, the slot to which the front is moved first, the
/// calls.
struct Run<'a> {
    remark: String,
    numbers: usize,
    places: usize,
    moved: Option<usize>,
    calls: &'a [&'a str],
}

/// Prints a run for each recorded sequence, which a line of standard input has: calls, each with `=` and its answer, between `;`.
pub fn write(room: &str, first: usize) {
    for (k, line) in std::io::stdin().lines().enumerate() {
        let line = line.expect("a line");
        let calls: Vec<&str> = line.split(';').map(|call| call.split_once('=').expect("a call and its answer").0).collect();
        print(&run(room, first + k, &calls));
    }
}

/// The run of a sequence with the room that is asked for: ample; the least that refuses nothing; that with the front moved on first;
/// one slot less, or one place less, up to the call that is refused.
fn run<'a>(room: &str, number: usize, calls: &'a [&'a str]) -> Run<'a> {
    let (slots, places) = (most(calls, Standing::slots), most(calls, Standing::places));
    let with = |slots, places, what: &str| {
        let remark = format!("RECORDED {number}, E = {slots}, D = {places}: {what}");
        Run { remark, numbers: 4 * slots, places, moved: None, calls }
    };
    match room {
        "ample" => Run { remark: format!("RECORDED {number}"), numbers: AMPLE.0, places: AMPLE.1, moved: None, calls },
        "least" => with(slots, places, "the least that refuse nothing"),
        "moved" => {
            let slot = front(number, slots);
            Run { moved: Some(slot), ..with(slots, places, &format!("the least, the front moved to slot {slot}")) }
        }
        "slot" => Run { calls: until(calls, Standing::slots, slots), ..with(slots - 1, places, "one slot less") },
        "place" => Run { calls: until(calls, Standing::places, places), ..with(slots, places - 1, "one place less") },
        other => panic!("`{other}` is no room"),
    }
}

/// The slot to which the front is moved: another from sequence to sequence.
fn front(number: usize, slots: usize) -> usize {
    (7 * number - 4) % slots
}

/// How much is needed after each call.
fn needed(calls: &[&str], need: fn(&Standing) -> usize) -> impl Iterator<Item = usize> {
    let mut standing = Standing::default();
    calls.iter().map(move |call| {
        standing.follow(call);
        need(&standing)
    })
}

/// The most that is needed after any call.
fn most(calls: &[&str], need: fn(&Standing) -> usize) -> usize {
    needed(calls, need).max().unwrap_or(0)
}

/// The calls up to the first that needs so much.
fn until<'a>(calls: &'a [&'a str], need: fn(&Standing) -> usize, much: usize) -> &'a [&'a str] {
    let last = needed(calls, need).position(|now| now == much).expect("a call that needs so much");
    &calls[..=last]
}

/// Prints a run. The front is moved on by tokens that are pushed and popped.
fn print(run: &Run) {
    println!("-- {}\nlend {} {}\nopen", run.remark, run.numbers, run.places);
    if let Some(slot) = run.moved {
        println!("{}drain", "token 0 0 0\n".repeat(slot));
    }
    run.calls.iter().for_each(|call| println!("{call}"));
}
