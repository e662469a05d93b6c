//! A lent range with elements on both sides that must not change.

/// Elements that can fill the places beside a lent range.
pub trait Fill: Copy + PartialEq {
    const FILL: Self;
}

impl Fill for u8 {
    const FILL: u8 = 0xC3;
}

impl Fill for u64 {
    const FILL: u64 = 0xC3C3_C3C3_C3C3_C3C3;
}

/// How many elements stand on each side.
const SIDE: usize = 32;

/// A copy of some elements between two guards.
pub struct Guarded<T> {
    all: Vec<T>,
}

impl<T: Fill> Guarded<T> {
    /// Copies the elements.
    pub fn new(content: &[T]) -> Guarded<T> {
        let mut all = vec![T::FILL; content.len() + 2 * SIDE];
        all[SIDE..SIDE + content.len()].copy_from_slice(content);
        Guarded { all }
    }

    /// The elements, to be changed.
    pub fn lend(&mut self) -> &mut [T] {
        let end = self.all.len() - SIDE;
        &mut self.all[SIDE..end]
    }

    /// The elements.
    pub fn get(&self) -> &[T] {
        &self.all[SIDE..self.all.len() - SIDE]
    }

    /// Whether nothing beside the elements has changed.
    pub fn is_kept(&self) -> bool {
        let end = self.all.len() - SIDE;
        self.all[..SIDE].iter().chain(&self.all[end..]).all(|&element| element == T::FILL)
    }

    /// The elements as they are now.
    pub fn take(mut self) -> Vec<T> {
        let end = self.all.len() - SIDE;
        self.all.truncate(end);
        self.all.split_off(SIDE)
    }
}
