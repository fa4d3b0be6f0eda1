// SPDX-License-Identifier: BSD-3-Clause
//! Lists the tokens of a rule file, by name and text: `cargo run --offline --example list FILE`
use std::error::Error;
use warpthistle::Tokens;

fn main() -> Result<(), Box<dyn Error>> {
    let path = std::env::args_os().nth(1).ok_or("usage: list FILE")?;
    let src = std::fs::read(path)?;
    for token in Tokens::new(&src)? {
        println!("{:<15} {:<12} {:?}", token.kind, format!("{:?}", token.span()), String::from_utf8_lossy(token.text(&src)));
    }
    Ok(())
}
