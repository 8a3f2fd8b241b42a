//! Memory to lend, with guards on both sides that show a write outside of it.

const GUARD: usize = 32;

pub struct Guarded<T> {
    all: Vec<T>,
    pattern: T,
}

impl<T: Copy + PartialEq> Guarded<T> {
    /// A copy of the content between two guards of the pattern.
    pub fn new(content: &[T], pattern: T) -> Self {
        let mut all = Vec::with_capacity(content.len() + 2 * GUARD);
        all.resize(GUARD, pattern);
        all.extend_from_slice(content);
        all.resize(content.len() + 2 * GUARD, pattern);
        Guarded { all, pattern }
    }

    pub fn content(&self) -> &[T] {
        &self.all[GUARD..self.all.len() - GUARD]
    }

    pub fn lend(&mut self) -> &mut [T] {
        let end = self.all.len() - GUARD;
        &mut self.all[GUARD..end]
    }

    /// Whether both guards are as they were.
    pub fn is_intact(&self) -> bool {
        let (front, back) = (&self.all[..GUARD], &self.all[self.all.len() - GUARD..]);
        front.iter().chain(back).all(|item| *item == self.pattern)
    }
}
