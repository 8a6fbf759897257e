//! Items lent to the library, with guards around them.

/// Guard items on either side of what is lent.
const GUARD: usize = 64;

/// Items lent to the library, with guards around them.
pub struct Lent<T> {
    room: Vec<T>,
    guard: T,
    from: usize,
    len: usize,
}

impl<T: Copy + PartialEq> Lent<T> {
    pub fn new(guard: T) -> Lent<T> {
        Lent {
            room: Vec::new(),
            guard,
            from: 0,
            len: 0,
        }
    }

    /// Sets the items, a few places later in memory if shifted.
    pub fn set(&mut self, items: &[T], shift: usize) {
        self.room.clear();
        self.room.resize(shift + GUARD, self.guard);
        self.room.extend_from_slice(items);
        self.room.resize(self.room.len() + GUARD, self.guard);
        self.from = shift + GUARD;
        self.len = items.len();
    }

    pub fn items(&self) -> &[T] {
        &self.room[self.from..self.from + self.len]
    }

    pub fn items_mut(&mut self) -> &mut [T] {
        &mut self.room[self.from..self.from + self.len]
    }

    pub fn guards_stand(&self) -> bool {
        let before = &self.room[..self.from];
        let behind = &self.room[self.from + self.len..];
        before.iter().chain(behind).all(|item| *item == self.guard)
    }

    /// All items, where their number is known.
    pub fn array<const N: usize>(&self) -> &[T; N] {
        self.items().try_into().expect("as many items are lent")
    }

    pub fn array_mut<const N: usize>(&mut self) -> &mut [T; N] {
        self.items_mut().try_into().expect("as many items are lent")
    }
}
