//! What is scanned: texts of some 60,000 bytes.
use reading::plain::{self, Mode};
use std::path::{Path, PathBuf};

/// How many bytes a text has at most.
const BYTES: usize = 60_000;

/// The first kind of a token that no rule matches: from there on the Rust may answer otherwise.
const INVALID_UTF8: u32 = 81;

/// Comments in five mixes.
pub fn comments() -> [(&'static str, Vec<u8>); 5] {
    [
        ("one line comment", between(b"//", b"")),
        ("one block comment", between(b"/*", b"*/")),
        ("line comments of 80 bytes", repeated(&[&b"// "[..], &[b'c'; 76], b"\n"].concat())),
        ("starred block comments", repeated(b"/*\n * text of a starred line\n * and another ** one\n */\n")),
        ("short comments and blanks", repeated(b"    /* a */\t/* b */  // c\n")),
    ]
}

/// One long string.
pub fn string() -> Vec<u8> {
    between(b"\"", b"\"")
}

/// The rule files of a folder, in the order of their names, one after the other.
pub fn rules(folder: &Path) -> Vec<u8> {
    joined(files(folder))
}

/// Those of them that are read in normal mode with no token that the Rust may end elsewhere.
pub fn matched_rules(folder: &Path) -> Vec<u8> {
    joined(files(folder).into_iter().filter(|rule| is_matched(rule)).collect())
}

/// Texts on lines of their own, from the first again where they are too few.
fn joined(texts: Vec<Vec<u8>>) -> Vec<u8> {
    let mut all = Vec::new();
    for text in texts.iter().cycle() {
        if all.len() + text.len() >= BYTES {
            break;
        }
        all.extend_from_slice(text);
        all.push(b'\n');
    }
    assert!(!all.is_empty(), "no rule files to join");
    all
}

/// Whether each token of a source is matched by a rule.
fn is_matched(src: &[u8]) -> bool {
    let mut tokens = Vec::new();
    plain::scan_all(src, 0, Mode::Normal, &mut tokens);
    tokens.iter().all(|token| token.kind < INVALID_UTF8)
}

/// The texts of the files in a folder, in the order of their names.
fn files(folder: &Path) -> Vec<Vec<u8>> {
    let entries = std::fs::read_dir(folder).unwrap_or_else(|error| panic!("{}: {error}", folder.display()));
    let mut paths: Vec<PathBuf> = entries.map(|entry| entry.expect("an entry of the folder").path()).collect();
    paths.sort();
    paths.iter().map(|path| std::fs::read(path).expect("a file of the folder")).collect()
}

/// One text as often as it fits.
fn repeated(text: &[u8]) -> Vec<u8> {
    text.repeat(BYTES / text.len())
}

/// A text that opens and closes so.
fn between(open: &[u8], close: &[u8]) -> Vec<u8> {
    [open, &vec![b'x'; BYTES - open.len() - close.len()], close].concat()
}
