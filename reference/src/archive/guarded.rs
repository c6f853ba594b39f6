//! A copy of a lent slice, cut out of a longer allocation. Guard values stand
//! before and after it.

use crate::random::Random;

/// The name of a lent value before or after which the archive wrote.
#[derive(Clone, Copy, Debug, PartialEq, Eq)]
pub struct Overrun(pub &'static str);

/// The least number of guard values on each side.
const LEAST_GUARD: usize = 24;

/// A value that may stand as a guard.
pub trait GuardValue: Copy + Eq {
    /// The guard value at this place of the allocation.
    fn guard(place: usize, salt: u64) -> Self;
}

impl GuardValue for u8 {
    fn guard(place: usize, salt: u64) -> u8 {
        mix(place, salt) as u8
    }
}

impl GuardValue for u32 {
    fn guard(place: usize, salt: u64) -> u32 {
        mix(place, salt) as u32
    }
}

/// Any numbers, or for every other salt numbers from 0 to 3.
fn mix(place: usize, salt: u64) -> u64 {
    let bits = Random::new(place as u64 ^ (salt << 16)).bits();
    if salt.is_multiple_of(2) {
        bits
    } else {
        bits % 4
    }
}

pub struct Guarded<T> {
    cells: Vec<T>,
    guard: usize,
    salt: u64,
}

impl<T: GuardValue> Guarded<T> {
    /// The salt sets the guard values and how many there are, so that slices
    /// of bytes begin at any address.
    pub fn new(lent: &[T], salt: u64) -> Guarded<T> {
        let guard = LEAST_GUARD + (salt % 8) as usize;
        let mut cells: Vec<T> = Vec::with_capacity(lent.len() + 2 * guard);
        cells.extend((0..guard).map(|place| T::guard(place, salt)));
        cells.extend_from_slice(lent);
        let after = cells.len()..cells.len() + guard;
        cells.extend(after.map(|place| T::guard(place, salt)));
        Guarded { cells, guard, salt }
    }

    pub fn length(&self) -> usize {
        self.cells.len() - 2 * self.guard
    }

    pub fn pointer(&mut self) -> *mut T {
        // In bounds: the guard values before the copy.
        unsafe { self.cells.as_mut_ptr().add(self.guard) }
    }

    /// The copy as it now is.
    pub fn lent(&self) -> &[T] {
        &self.cells[self.guard..self.guard + self.length()]
    }

    /// Writes the copy back to where it came from, unless a guard changed.
    pub fn give_back(&self, name: &'static str, lent: &mut [T]) -> Result<(), Overrun> {
        lent.copy_from_slice(self.lent());
        if self.is_intact() {
            Ok(())
        } else {
            Err(Overrun(name))
        }
    }

    fn is_intact(&self) -> bool {
        let before = 0..self.guard;
        let after = self.guard + self.length()..self.cells.len();
        let is_guard = |place: usize| self.cells[place] == T::guard(place, self.salt);
        before.chain(after).all(is_guard)
    }
}
