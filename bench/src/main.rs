//! What the proved port costs, as a ratio to Rust. Before a thing is timed, the answers of both sides are found equal.
mod events;
mod rounds;
mod scanner;
mod sources;
mod window;

use rounds::{ROUNDS, Row};
use std::path::Path;

/// So few slots as a parser needs, and many more.
const FEW: usize = 8;
const MANY: usize = 4_096;

fn main() {
    let folder = std::env::args().nth(1).expect("the folder of the rule files");
    let rules = sources::rules(Path::new(&folder));
    let matched = sources::matched_rules(Path::new(&folder));
    println!("Medians of {ROUNDS} rounds, in which both sides have their turns.");
    table("The listing as text, against a scanner written by hand in Rust; a unit is a byte", listings(&rules));
    table("The tokens of rule files as numbers; a unit is a byte", lists(&matched));
    table("The window on rule files, against the Rust's token stream; a unit is a call", windows(&matched));
    table("The event stream, against the Rust's; a unit is a call", streams());
}

/// Prints rows under a title.
fn table(title: &str, rows: Vec<Row>) {
    println!("\n{title}\n\n{}", Row::HEAD);
    for row in rows {
        println!("{row}");
    }
}

fn listings(rules: &[u8]) -> Vec<Row> {
    let comments = sources::comments();
    let mut rows: Vec<Row> = comments.iter().map(|(what, src)| scanner::listing(what, src)).collect();
    rows.push(scanner::listing("one string", &sources::string()));
    rows.push(scanner::listing("rule files", rules));
    rows
}

fn lists(rules: &[u8]) -> Vec<Row> {
    vec![scanner::tokens("against the scanner by hand", rules), scanner::tokens_of_the_rust("against the Rust's tokenizer", rules)]
}

fn windows(rules: &[u8]) -> Vec<Row> {
    vec![
        window::nexts(&format!("every token by next, {FEW} slots"), rules, FEW),
        window::nexts(&format!("every token by next, {MANY} slots"), rules, MANY),
        window::tries(&format!("as a parser that tries, {FEW} slots"), rules, FEW),
        window::tries(&format!("as a parser that tries, {MANY} slots"), rules, MANY),
    ]
}

fn streams() -> Vec<Row> {
    vec![
        events::drained("nodes of eight tokens, each popped at once"),
        events::drained_at_last("the same, all popped at last"),
        events::taken_back("the first, with a bookmark, four tokens, truncate and remove in each"),
    ]
}
