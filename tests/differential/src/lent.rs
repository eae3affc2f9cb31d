//! Memory that is lent to a reader, between guard words that no reader may touch.

/// How many guard words stand on each side.
const GUARDS: usize = 4;

/// What is lent, with a pattern in it, and the guards around it.
pub struct Lent<T> {
    all: Vec<T>,
}

/// A value for each place, so that a stray or missing write shows.
pub trait Pattern: Copy + PartialEq {
    /// The value at a place before the call.
    fn at(place: usize) -> Self;
}

impl Pattern for u64 {
    fn at(place: usize) -> u64 {
        0xA5A5_0000_0000_0000 + place as u64
    }
}

impl Pattern for i64 {
    fn at(place: usize) -> i64 {
        -0x5A5A_0000_0000_0000 - place as i64
    }
}

impl Pattern for u8 {
    fn at(place: usize) -> u8 {
        (place * 7 + 3) as u8
    }
}

impl<T: Pattern> Lent<T> {
    /// So many values to lend.
    pub fn new(length: usize) -> Lent<T> {
        Lent { all: (0..length + 2 * GUARDS).map(T::at).collect() }
    }

    /// The part that is lent.
    pub fn part(&mut self) -> &mut [T] {
        let end = self.all.len() - GUARDS;
        &mut self.all[GUARDS..end]
    }

    /// Whether the guards hold what they held.
    pub fn guarded(&self) -> bool {
        let end = self.all.len() - GUARDS;
        let held = |place: usize| self.all[place] == T::at(place);
        (0..GUARDS).all(held) && (end..self.all.len()).all(held)
    }

    /// The first place of what was lent where two differ.
    pub fn difference(&self, other: &Lent<T>) -> Option<usize> {
        if self.all == other.all {
            return None;
        }
        let places = self.all.iter().zip(&other.all).position(|(one, two)| one != two);
        Some(places.unwrap_or(self.all.len().min(other.all.len())).saturating_sub(GUARDS))
    }
}
