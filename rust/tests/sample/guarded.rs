//! A lent buffer with known elements before and after it, to catch a write past its ends.

/// The elements of each guard: an odd number, so that a buffer has no more alignment than its elements need.
const GUARD: usize = 61;

/// What each element of a guard holds.
const KNOWN: u8 = 0xA5;

/// A buffer between two guards.
pub struct Guarded<T>(Vec<T>);

impl<T: Copy + PartialEq + From<u8>> Guarded<T> {
    /// A copy of the elements between two guards.
    pub fn new(elements: &[T]) -> Guarded<T> {
        let guard = [T::from(KNOWN); GUARD];
        Guarded([&guard, elements, &guard].concat())
    }

    /// The buffer without its guards.
    pub fn lend(&mut self) -> &mut [T] {
        let end = self.0.len() - GUARD;
        &mut self.0[GUARD..end]
    }

    /// Whether the buffer holds these elements and both guards stand.
    pub fn holds(&self, elements: &[T]) -> bool {
        let guard = [T::from(KNOWN); GUARD];
        let (before, rest) = self.0.split_at(GUARD);
        let (inside, after) = rest.split_at(rest.len() - GUARD);
        inside == elements && before == guard && after == guard
    }
}
