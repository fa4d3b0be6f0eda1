//! What a comparison found, as a row of the table.
use std::fmt::{Display, Formatter};

/// A row of the table.
pub struct Row {
    pub what: String,
    pub cases: u64,
    /// Tokens or calls.
    pub compared: u64,
    pub equal_whole: u64,
    pub explained: u64,
    pub differ: u64,
}

impl Display for Row {
    fn fmt(&self, f: &mut Formatter<'_>) -> std::fmt::Result {
        let Row { what, cases, compared, equal_whole, explained, differ } = self;
        write!(f, "| {what} | {cases} | {compared} | {equal_whole} | {explained} | {differ} |")
    }
}
