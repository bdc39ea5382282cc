//! A slice with guard items on both sides, to see that a call writes nowhere else.

const GUARDS: usize = 64;

pub struct Guarded<T> {
    all: Vec<T>,
    guard: T,
}

impl<T: Copy + PartialEq> Guarded<T> {
    pub fn new(items: &[T], guard: T) -> Guarded<T> {
        let mut all = Vec::with_capacity(items.len() + 2 * GUARDS);
        all.resize(GUARDS, guard);
        all.extend_from_slice(items);
        all.extend(std::iter::repeat_n(guard, GUARDS));
        Guarded { all, guard }
    }

    pub fn items(&self) -> &[T] {
        &self.all[GUARDS..self.all.len() - GUARDS]
    }

    pub fn items_mut(&mut self) -> &mut [T] {
        let end = self.all.len() - GUARDS;
        &mut self.all[GUARDS..end]
    }

    pub fn guards_stand(&self) -> bool {
        let (front, rest) = self.all.split_at(GUARDS);
        let back = &rest[rest.len() - GUARDS..];
        front.iter().chain(back).all(|&item| item == self.guard)
    }
}
