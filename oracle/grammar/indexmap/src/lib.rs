//! Stands in for the crate indexmap, which is not fetched: the one set that the grammar parser uses of it, for the words of its messages.

/// A set in the order of insertion.
pub struct IndexSet<T>(Vec<T>);

impl<T> Default for IndexSet<T> {
    fn default() -> Self {
        IndexSet(Vec::new())
    }
}

impl<T: PartialEq> IndexSet<T> {
    /// Puts a value in, unless it is there.
    pub fn insert(&mut self, value: T) -> bool {
        let new = !self.0.contains(&value);
        if new {
            self.0.push(value);
        }
        new
    }

    /// The values.
    pub fn as_slice(&self) -> &[T] {
        &self.0
    }
}

impl<T: PartialEq> Extend<T> for IndexSet<T> {
    fn extend<I: IntoIterator<Item = T>>(&mut self, values: I) {
        for value in values {
            self.insert(value);
        }
    }
}
