//! Which characters are digits, blanks and White_Space.
use super::comparison::Comparison;
use super::findings::Findings;
use crate::parts::in_parts;
use crate::row::Row;
use reading::patterns::Patterns;
use reading::plain::{self, Mode, Tok};

/// A property of characters, the texts behind which a character shows it, and the reading of document 01.
struct Property {
    name: &'static str,
    texts: &'static [&'static str],
    shown: fn(&Tok, usize) -> bool,
    read: fn(u32) -> bool,
}

/// A digit or a letter goes on with a word, a blank with a blank run; White_Space ends UNKNOWN.
const PROPERTIES: [Property; 3] = [
    Property { name: "letters, `_` and decimal digits", texts: &["a", "$"], shown: goes_on, read: in_word },
    Property { name: "blanks", texts: &[" "], shown: goes_on, read: plain::is_blank },
    Property { name: "White_Space", texts: &[";"], shown: stops, read: plain::is_white_space },
];

/// Whether the token at the start of a source of this length goes on to its end.
fn goes_on(token: &Tok, length: usize) -> bool {
    token.end as usize == length
}

/// Whether the token at the start of a source stops before the character behind its first byte.
fn stops(token: &Tok, _: usize) -> bool {
    token.end == 1
}

/// Whether a character may stand in a word tail.
fn in_word(c: u32) -> bool {
    plain::is_digit(c) || char::from_u32(c).is_some_and(|c| c.is_ascii_alphabetic() || c == '_')
}

/// How many characters have each property by the Rust, by the port and by the reading, and how often these are not alike.
#[derive(Default, Clone, Copy)]
struct Count {
    rust: u64,
    port: u64,
    read: u64,
    unlike: u64,
}

impl Count {
    /// Adds another count.
    fn add(&mut self, other: Count) {
        self.rust += other.rust;
        self.port += other.port;
        self.read += other.read;
        self.unlike += other.unlike;
    }
}

const PLANE: u32 = 0x1_0000;

/// Every character behind texts that show what it is.
pub fn unicode() -> Row {
    let patterns = Patterns::read();
    let planes = in_parts(
        17,
        || Comparison::new(&patterns),
        |comparison, plane| {
            let characters = (0..PLANE).filter_map(|c| char::from_u32(plane as u32 * PLANE + c));
            let counts = counts(characters, comparison);
            (counts, std::mem::take(&mut comparison.findings))
        },
    );
    let mut sums = [Count::default(); 3];
    planes.iter().for_each(|(counts, _)| sums.iter_mut().zip(counts).for_each(|(sum, count)| sum.add(*count)));
    let findings = Findings::joined(planes.into_iter().map(|(_, findings)| findings).collect());
    findings.print();
    for (Property { name, .. }, Count { rust, port, read, unlike }) in PROPERTIES.iter().zip(sums) {
        println!("{name}: {rust} by the Rust, {port} by the port, {read} by document 01 with Unicode 16.0; {unlike} not alike");
    }
    let row = findings.row("every character behind a letter, `$`, a blank, `;`".to_string());
    Row { differ: row.differ + sums.iter().map(|count| count.unlike).sum::<u64>(), ..row }
}

/// Compares the sources that show each character's properties, and counts the characters that have them.
fn counts(characters: impl Iterator<Item = char>, comparison: &mut Comparison) -> [Count; 3] {
    let mut counts = [Count::default(); 3];
    for c in characters {
        for (property, count) in PROPERTIES.iter().zip(&mut counts) {
            let read = (property.read)(c as u32);
            count.read += u64::from(read);
            let (mut rust, mut port) = (true, true);
            for text in property.texts {
                let src = format!("{text}{c}");
                comparison.compare(src.as_bytes(), Mode::Normal, &[]);
                rust &= (property.shown)(&comparison.rust[0], src.len());
                port &= (property.shown)(&comparison.port[0], src.len());
            }
            count.rust += u64::from(rust);
            count.port += u64::from(port);
            count.unlike += u64::from(rust != read || port != read);
        }
    }
    counts
}
