//! Random sequences of calls on an event stream, inside document 01's domain of equality.
use crate::random::Random;
use crate::standing::Standing;

/// The kinds that are drawn are those below this.
const KINDS: usize = 100;

/// A sequence that is being drawn.
#[derive(Default)]
struct Sequence {
    calls: Vec<String>,
    standing: Standing,
    bookmarks: Vec<usize>,
}

/// The calls of a sequence, the opening first: 40 turns, and what it takes to pop all events.
pub fn sequence(random: &mut Random) -> Vec<String> {
    let mut sequence = Sequence::default();
    sequence.add("open".to_string());
    for _ in 0..40 {
        if let Some(call) = sequence.draw(random) {
            sequence.add(call);
        }
    }
    sequence.settle();
    sequence.calls
}

impl Sequence {
    /// Adds a call, and follows it.
    fn add(&mut self, call: String) {
        self.standing.follow(&call);
        self.calls.push(call);
    }

    /// Draws a call, or none where the one that is drawn cannot be made.
    fn draw(&mut self, random: &mut Random) -> Option<String> {
        let open = self.standing.places() > 0;
        let marked = !self.bookmarks.is_empty();
        match random.below(12) {
            0..=2 => Some(self.token(random)),
            3 => Some("error 7 1 2".to_string()),
            4 | 5 => Some(format!("begin {}", random.below(KINDS))),
            6 if open => Some("end".to_string()),
            7 if open => Some("end_error".to_string()),
            8 => Some(self.bookmark()),
            9 if marked => self.truncate(random.one_of(&self.bookmarks)),
            10 if marked => self.remove(random.below(self.bookmarks.len())),
            11 if !marked && !open => Some("pop".to_string()),
            _ => None,
        }
    }

    /// A token at the last token's end or one behind it.
    fn token(&self, random: &mut Random) -> String {
        let start = self.standing.last_end as usize + random.below(2);
        let end = start + random.below(4);
        format!("token {} {start} {end}", random.below(KINDS))
    }

    /// A bookmark behind the last event.
    fn bookmark(&mut self) -> String {
        self.bookmarks.push(self.standing.count());
        "bookmark".to_string()
    }

    /// A truncation to a position, where it can be made.
    fn truncate(&self, position: usize) -> Option<String> {
        self.standing.can_truncate(position).then(|| format!("truncate {position}"))
    }

    /// The removal of a bookmark that is named by its place in the list, unless it lies past the end, where the Rust panics.
    fn remove(&mut self, place: usize) -> Option<String> {
        let past = self.bookmarks[place] > self.standing.count();
        (!past).then(|| format!("remove {}", self.bookmarks.swap_remove(place)))
    }

    /// Ends all nodes, removes all bookmarks and pops all events. With a bookmark past the end nothing can be popped any more.
    fn settle(&mut self) {
        while self.standing.places() > 0 {
            self.add("end".to_string());
        }
        if self.bookmarks.iter().any(|position| *position > self.standing.count()) {
            return;
        }
        for position in std::mem::take(&mut self.bookmarks) {
            self.add(format!("remove {position}"));
        }
        for _ in 0..=self.standing.count() {
            self.add("pop".to_string());
        }
    }
}
