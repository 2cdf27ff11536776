//! Window stores: entries by whole number, over memory that the caller lends.

/// Number j lies at place j mod the length.
pub struct WindowStore<'a, T> {
    places: &'a mut [T],
}

impl<'a, T> WindowStore<'a, T> {
    pub fn new(places: &'a mut [T]) -> WindowStore<'a, T> {
        WindowStore { places }
    }

    pub fn len(&self) -> usize {
        self.places.len()
    }

    pub fn is_empty(&self) -> bool {
        self.places.is_empty()
    }

    /// What lies under a number. The store must not be empty.
    pub fn get(&self, number: u32) -> &T {
        &self.places[number as usize % self.places.len()]
    }

    /// Likewise, to be changed.
    pub fn get_mut(&mut self, number: u32) -> &mut T {
        &mut self.places[number as usize % self.places.len()]
    }

    pub fn fill(&mut self, value: T)
    where
        T: Clone,
    {
        self.places.fill(value);
    }
}
