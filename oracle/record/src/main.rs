//! Records what the Rust answers: its tokenizer, its token stream (the window) and its syntax stream (the events).
mod draw_events;
mod draw_window;
mod events;
mod hex;
mod random;
mod runs;
mod script;
mod standing;
mod tokens;
mod vectors;
mod window;

use random::Random;
use rust::{events::Events, window::Window};

const USAGE: &str = "\
record list [--start MODE]    the listing of standard input
record tokens MODE            a record of each source: standard input has them in hexadecimal, one a line
record vectors COUNT SEED     records of random sources
record window                 answers a script on the window: one call a line, one answer a line
record events                 answers a script on the event stream
record scripts COUNT SEED     random sequences of calls with the answers, for the window and then for the event stream
record runs ROOM FIRST        recorded sequences of events, one a line, as cases of `event_cases`; the first has the number FIRST
MODE is normal, pattern or jump; ROOM is ample, least, moved, slot or place";

/// Does what the command asks for, or says what it could ask for.
fn main() {
    let words: Vec<String> = std::env::args().skip(1).collect();
    let words: Vec<&str> = words.iter().map(String::as_str).collect();
    match words.as_slice() {
        ["list"] => tokens::list("normal"),
        ["list", "--start", mode] => tokens::list(mode),
        ["tokens", mode] => tokens::records(mode),
        ["vectors", count, seed] => vectors::write(number(count), &mut Random::new(number(seed))),
        ["window"] => script::run::<Window>(),
        ["events"] => script::run::<Events>(),
        ["scripts", count, seed] => scripts(number(count), &mut Random::new(number(seed))),
        ["runs", room, first] => runs::write(room, number(first)),
        _ => {
            eprintln!("{USAGE}");
            std::process::exit(2);
        }
    }
}

/// The number that a word writes.
fn number<N: std::str::FromStr>(word: &str) -> N {
    word.parse().unwrap_or_else(|_| panic!("`{word}` is no such number"))
}

/// Prints random sequences of calls with the answers, so many for each of the two streams.
fn scripts(count: u64, random: &mut Random) {
    println!("-- window");
    (0..count).for_each(|_| script::record::<Window>(&draw_window::sequence(random)));
    println!("-- events");
    (0..count).for_each(|_| script::record::<Events>(&draw_events::sequence(random)));
}
