//! Takes `Span` out of docs/src's lib.rs, which cannot be used whole: the module of the abstract syntax tree is not there.
use std::path::Path;

fn main() {
    let path = Path::new("../../docs/src/src/lib.rs");
    println!("cargo:rerun-if-changed={}", path.display());
    let text = std::fs::read_to_string(path).unwrap_or_else(|error| panic!("{}: {error}", path.display()));
    let place = text.find("/// Starting and ending positions of some token").expect("lib.rs has Span");
    let folder = std::env::var("OUT_DIR").unwrap();
    std::fs::write(Path::new(&folder).join("span.rs"), &text[place..]).unwrap();
}
