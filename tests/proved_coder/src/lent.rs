//! A lent buffer between two guards, to see what a call touches.

/// Entries before and after the lent ones; no call may change them.
const GUARD: usize = 8;

/// A lent buffer, kept beside what it was.
pub struct Lent<T> {
    entries: Vec<T>,
    before: Vec<T>,
}

impl<T: Copy + PartialEq> Lent<T> {
    /// Lends these entries, between guards of `guard`.
    pub fn of(entries: &[T], guard: T) -> Lent<T> {
        let guards = [guard; GUARD];
        let entries = [&guards[..], entries, &guards[..]].concat();
        let before = entries.clone();
        Lent { entries, before }
    }

    /// Lends `length` entries of one value; the guards have it too.
    pub fn filled(length: usize, value: T) -> Lent<T> {
        let entries = vec![value; length + 2 * GUARD];
        let before = entries.clone();
        Lent { entries, before }
    }

    pub fn len(&self) -> usize {
        self.entries.len() - 2 * GUARD
    }

    pub fn lend(&self) -> *const T {
        self.entries[GUARD..].as_ptr()
    }

    pub fn lend_mut(&mut self) -> *mut T {
        self.entries[GUARD..].as_mut_ptr()
    }

    /// The lent entries as they are now.
    pub fn now(&self) -> &[T] {
        &self.entries[GUARD..GUARD + self.len()]
    }

    /// Whether everything but the first `count` lent entries from `from` on is as it was, guards included.
    pub fn untouched_but(&self, from: usize, count: usize) -> bool {
        let (first, end) = (GUARD + from, GUARD + from + count);
        end <= self.entries.len() - GUARD
            && self.entries[..first] == self.before[..first]
            && self.entries[end..] == self.before[end..]
    }

    /// Whether everything is as it was, guards included.
    pub fn untouched(&self) -> bool {
        self.untouched_but(0, 0)
    }

    /// Whether the lent entries are all `value`, and the guards as they were.
    pub fn all(&self, value: T) -> bool {
        self.untouched_but(0, self.len()) && self.now().iter().all(|&entry| entry == value)
    }
}
