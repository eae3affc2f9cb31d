//! What came of one call, and what differs between two.

use crate::lent::Lent;

/// All that a reading or a rewriting leaves behind.
pub struct Outcome {
    /// The four numbers of the answer.
    pub answer: [u64; 4],
    /// The segment table.
    pub segments: Lent<u64>,
    /// The level table.
    pub levels: Lent<u64>,
    /// The output of a rewriting; nothing is lent to a reading.
    pub output: Lent<u8>,
}

/// How much is lent: numbers of both tables, bytes of the output.
#[derive(Clone, Copy, Debug)]
pub struct Sizes {
    /// Numbers of the segment table.
    pub segments: usize,
    /// Numbers of the level table.
    pub levels: usize,
    /// Bytes of the output.
    pub output: usize,
}

impl Outcome {
    /// Before the call.
    pub fn new(sizes: Sizes) -> Outcome {
        Outcome {
            answer: [u64::MAX; 4],
            segments: Lent::new(sizes.segments),
            levels: Lent::new(sizes.levels),
            output: Lent::new(sizes.output),
        }
    }

    /// What differs, if anything does, or which guard was touched.
    pub fn difference(&self, other: &Outcome) -> Option<String> {
        for (name, one) in [("the first", self), ("the second", other)] {
            if !(one.segments.guarded() && one.levels.guarded() && one.output.guarded()) {
                return Some(format!("{name} wrote outside of what was lent"));
            }
        }
        if self.answer != other.answer {
            return Some(format!("answers {:?} and {:?}", self.answer, other.answer));
        }
        let places = [
            ("segment table", self.segments.difference(&other.segments)),
            ("level table", self.levels.difference(&other.levels)),
            ("output", self.output.difference(&other.output)),
        ];
        let (name, place) = places.iter().find_map(|(name, place)| place.map(|place| (name, place)))?;
        Some(format!("answer {:?}, {name} at {place}", self.answer))
    }
}

#[cfg(test)]
mod tests {
    use super::*;

    const SIZES: Sizes = Sizes { segments: 6, levels: 4, output: 3 };

    fn changed(change: fn(&mut Outcome)) -> Option<String> {
        let mut other = Outcome::new(SIZES);
        change(&mut other);
        Outcome::new(SIZES).difference(&other)
    }

    #[test]
    fn equal_outcomes_do_not_differ() {
        assert_eq!(changed(|_| ()), None);
    }

    #[test]
    fn every_change_is_found() {
        assert!(changed(|other| other.answer[3] = 0).unwrap().starts_with("answers"));
        assert!(changed(|other| other.segments.part()[5] = 0).unwrap().ends_with("segment table at 5"));
        assert!(changed(|other| other.levels.part()[0] = 0).unwrap().ends_with("level table at 0"));
        assert!(changed(|other| other.output.part()[2] = 0).unwrap().ends_with("output at 2"));
    }

    #[test]
    fn a_write_outside_is_found() {
        let mut other = Outcome::new(SIZES);
        let end = other.segments.part().as_mut_ptr_range().end;
        // SAFETY: a guard word stands behind what is lent.
        unsafe { end.write(0) };
        assert!(Outcome::new(SIZES).difference(&other).unwrap().contains("outside"));
        let mut other = Outcome::new(SIZES);
        let start = other.output.part().as_mut_ptr();
        // SAFETY: a guard byte stands before what is lent.
        unsafe { start.sub(1).write(0) };
        assert!(Outcome::new(SIZES).difference(&other).unwrap().contains("outside"));
    }
}
