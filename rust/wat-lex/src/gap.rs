use alloc::vec::Vec;

/// An item of a text, with a distance from the start or the end of the text.
pub(crate) trait Placed: Copy {
    /// The distance from the start to the end of the text.
    type Length: Copy;

    /// Converts an item between counting from the start and counting back from the end of a text of this length.
    fn mirrored(self, length: Self::Length) -> Self;
}

impl Placed for usize {
    type Length = usize;

    fn mirrored(self, length: usize) -> usize {
        length - self
    }
}

/// A gap buffer of items in the order of their offsets. The offsets of items before the gap count from the start of the text, and those of items
/// after it count back from the end of the text. All of them stay valid if the text changes at the gap.
#[derive(Clone, Debug)]
pub(crate) struct Gap<T> {
    before: Vec<T>,
    /// In reverse order: the last item is next to the gap.
    after: Vec<T>,
}

impl<T> Default for Gap<T> {
    fn default() -> Gap<T> {
        Gap {
            before: Vec::new(),
            after: Vec::new(),
        }
    }
}

// The parameter `length` of the methods is the length of the text.
impl<T: Placed> Gap<T> {
    /// Returns the number of items.
    pub(crate) fn len(&self) -> usize {
        self.before.len() + self.after.len()
    }

    /// Returns the items before the gap.
    pub(crate) fn before(&self) -> &[T] {
        &self.before
    }

    /// Returns the number of items after the gap.
    pub(crate) fn after_len(&self) -> usize {
        self.after.len()
    }

    /// Returns the item at an index.
    pub(crate) fn get(&self, index: usize, length: T::Length) -> Option<T> {
        match index.checked_sub(self.before.len()) {
            None => Some(self.before[index]),
            Some(i) => Some(self.after.iter().nth_back(i)?.mirrored(length)),
        }
    }

    /// Returns all items in order.
    pub(crate) fn iter(
        &self,
        length: T::Length,
    ) -> impl DoubleEndedIterator<Item = T> + Clone + '_ {
        let after = self.after.iter().rev();
        let after = after.map(move |item| item.mirrored(length));
        self.before.iter().copied().chain(after)
    }

    /// Returns the number of items that satisfy the predicate. They must precede all others.
    pub(crate) fn count_first(&self, length: T::Length, passes: impl Fn(T) -> bool) -> usize {
        let others = |item: &T| !passes(item.mirrored(length));
        let after = self.after.len() - self.after.partition_point(others);
        self.before.partition_point(|item| passes(*item)) + after
    }

    /// Returns the item directly after the gap.
    pub(crate) fn first_after(&self, length: T::Length) -> Option<T> {
        Some(self.after.last()?.mirrored(length))
    }

    /// Appends an item directly before the gap.
    pub(crate) fn push(&mut self, item: T) {
        self.before.push(item);
    }

    /// Removes the item directly after the gap.
    pub(crate) fn drop_after(&mut self) {
        self.after.pop();
    }

    /// Removes items directly after the gap while they satisfy the predicate.
    pub(crate) fn drop_while(&mut self, length: T::Length, is_dropped: impl Fn(T) -> bool) {
        while self.first_after(length).is_some_and(&is_dropped) {
            self.drop_after();
        }
    }

    /// Keeps the first `count` items before the gap and removes the others before it.
    pub(crate) fn truncate(&mut self, count: usize) {
        self.before.truncate(count);
    }

    /// Moves the gap after the last item that satisfies the predicate. Those items must precede all others.
    pub(crate) fn move_to(&mut self, length: T::Length, passes: impl Fn(T) -> bool) {
        while let Some(item) = self.before.last().filter(|item| !passes(**item)) {
            self.after.push(item.mirrored(length));
            self.before.pop();
        }
        while let Some(item) = self.first_after(length).filter(|item| passes(*item)) {
            self.before.push(item);
            self.after.pop();
        }
    }
}
