//! Damaged copies of rule files: tokens left out, doubled, exchanged or taken from elsewhere, and files that are cut off.
use crate::random::Random;
use crate::record::Record;
use crate::tokenizer::Tokens;

/// The texts of a file's tokens, as the grammar parser reads them.
pub fn words(src: &[u8]) -> Vec<Vec<u8>> {
    Record::of(src, Tokens::Plain).tokens.iter().map(|token| src[token.start as usize..token.end as usize].to_vec()).collect()
}

/// Copies of two of the files behind one another, damaged in one to three places.
pub fn copy(files: &[Vec<Vec<u8>>], random: &mut Random) -> Vec<u8> {
    let mut copy = [random.one_of(files).clone(), random.one_of(files).clone()].concat();
    for _ in 0..1 + random.below(3) {
        if copy.is_empty() {
            break;
        }
        let (here, there) = (random.below(copy.len()), random.below(copy.len()));
        match random.below(9) {
            0..3 => drop(copy.remove(here)),
            3 | 4 => copy.insert(here, copy[here].clone()),
            5 | 6 => copy.swap(here, there),
            7 => {
                let other = random.one_of(files);
                if !other.is_empty() {
                    copy[here] = random.one_of(other).clone();
                }
            }
            _ => copy.truncate(here + 1),
        }
    }
    copy.concat()
}
