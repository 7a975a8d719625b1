// A slice that is lent with some elements on either side of it, which are to stay as they are.

pub struct Guarded<T> {
    elements: Vec<T>,
    guard: T,
}

/// So many stand on either side: more than a row of numbers, or than a number with its kind.
const GUARDS: usize = 16;

impl<T: Copy + PartialEq> Guarded<T> {
    pub fn new(slice: &[T], guard: T) -> Self {
        let elements = [&[guard; GUARDS], slice, &[guard; GUARDS]].concat();
        Guarded { elements, guard }
    }

    pub fn slice(&self) -> &[T] {
        &self.elements[GUARDS..self.elements.len() - GUARDS]
    }

    pub fn slice_mut(&mut self) -> &mut [T] {
        let end = self.elements.len() - GUARDS;
        &mut self.elements[GUARDS..end]
    }

    pub fn kept(&self) -> bool {
        let end = self.elements.len() - GUARDS;
        let mut guards = self.elements[..GUARDS].iter().chain(&self.elements[end..]);
        guards.all(|element| *element == self.guard)
    }
}
