//! Takes `Span` and `Event` out of docs/src: their files need the grammar parser and the syntax tree, which are left out.
use std::path::Path;

const SOURCE: &str = "../../docs/src/src";

/// Takes both.
fn main() {
    take("lib.rs", "/// Starting and ending positions of some token", None, "span.rs");
    take("cst/mod.rs", "/// Each of the events in a [`CSTStream`].", Some("/// A CST represented as a stream of events."), "event.rs");
}

/// Writes the text of a file from one marker up to another, or to the end, to be included.
fn take(file: &str, from: &str, to: Option<&str>, name: &str) {
    let path = Path::new(SOURCE).join(file);
    println!("cargo:rerun-if-changed={}", path.display());
    let text = std::fs::read_to_string(&path).unwrap_or_else(|error| panic!("{}: {error}", path.display()));
    let place = |marker: &str| text.find(marker).unwrap_or_else(|| panic!("{} has no line `{marker}`", path.display()));
    let taken = &text[place(from)..to.map_or(text.len(), place)];
    let folder = std::env::var("OUT_DIR").unwrap();
    std::fs::write(Path::new(&folder).join(name), taken).unwrap();
}
