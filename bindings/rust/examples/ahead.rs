// SPDX-License-Identifier: BSD-3-Clause
//! Walks the tokens of a source call by call: each as it comes, then back to the first without losing one, and a look ahead.
use warpthistle::{Kind, Refusal, TokenStream};

fn main() -> Result<(), Refusal> {
    let src = b"rule till { condition: true }";
    let mut stream = TokenStream::new(src)?;
    let start = stream.bookmark()?;
    while let Some(token) = stream.next_token() {
        println!("{} {:?}", token.kind.number(), token.span());
    }
    stream.restore_bookmark(&start)?; // back to the first token
    stream.remove_bookmark(start)?;
    if let Some(name) = stream.peek_token(2).filter(|token| token.kind == Kind::Ident) {
        println!("the rule is {}", String::from_utf8_lossy(name.text(src)));
    }
    Ok(())
}
