//! The levels listed under their parents (document 02, Item 2). Each level has a path: its ancestors from the
//! outermost on, and then itself. The order of the paths is that of the listing: a level comes before all that
//! begin with its path, and children of one parent differ in their own numbers alone.

use crate::levels::LEVEL_NUMBERS;

/// How deep a level may be.
const DEEPEST: usize = 4;

/// The numbers on a level's path, and zeros behind them.
type Path = [u64; DEEPEST];

/// The answer of a walk.
#[derive(Clone, Copy, Debug, PartialEq, Eq)]
pub enum WalkAnswer {
    /// Answer 0.
    Walked {
        /// How many levels, each of which is listed once.
        levels: usize,
    },
    /// Answers 20 and 21.
    Refused {
        /// The answer's number.
        number: usize,
        /// The level that is unfit; 0 where no level is meant.
        level: usize,
    },
}

impl WalkAnswer {
    /// The two numbers: 0 and the count, or number and level.
    pub fn numbers(&self) -> [u64; 2] {
        match *self {
            WalkAnswer::Walked { levels } => [0, levels as u64],
            WalkAnswer::Refused { number, level } => [number as u64, level as u64],
        }
    }
}

/// Lists so many levels of the table: each under its parent, and what has the same parent, or none, in file
/// order. The numbers go to the output; what lies past the count there keeps what it held. Of a level the
/// parent and the depth are judged, its segment and its code are not.
pub fn walk(levels: &[u64], count: u64, output: &mut [u64]) -> WalkAnswer {
    let refused = |number, level| WalkAnswer::Refused { number, level };
    let room = levels.len() / LEVEL_NUMBERS;
    if count > room as u64 {
        return refused(20, 0);
    }
    let count = count as usize;
    let mut paths = Vec::with_capacity(count);
    for record in levels.chunks_exact(LEVEL_NUMBERS).take(count) {
        match path(&paths, record[1], record[2]) {
            Some(path) => paths.push(path),
            None => return refused(20, paths.len() + 1),
        }
    }
    let Some(output) = output.get_mut(..count) else { return refused(21, 0) };
    paths.sort_unstable();
    for (to, path) in output.iter_mut().zip(&paths) {
        *to = path[length(path) - 1];
    }
    WalkAnswer::Walked { levels: count }
}

/// How many numbers a path has.
fn length(path: &Path) -> usize {
    path.iter().take_while(|number| **number != 0).count()
}

/// The path of the next level behind these, if its parent and its depth are fit.
fn path(earlier: &[Path], parent: u64, depth: u64) -> Option<Path> {
    let mut path = match parent.checked_sub(1) {
        None => [0; DEEPEST],
        Some(before) => *earlier.get(usize::try_from(before).ok()?)?,
    };
    let above = length(&path);
    if depth != above as u64 + 1 {
        return None;
    }
    // There is no place for a level that is too deep.
    *path.get_mut(above)? = earlier.len() as u64 + 1;
    Some(path)
}

#[cfg(test)]
mod tests {
    use super::*;

    /// What each number of the output holds before.
    const HELD: u64 = 77;

    /// A level as these tables tell of it: its parent's number and its depth.
    type Level = (u64, u64);

    /// The numbers of a table. Segment and code are not judged.
    fn table(levels: &[Level]) -> Vec<u64> {
        levels.iter().flat_map(|(parent, depth)| [u64::MAX, *parent, *depth, 0]).collect()
    }

    /// The two numbers of a walk, and an output of so many numbers after it.
    fn walked(levels: &[u64], count: u64, length: usize) -> ([u64; 2], Vec<u64>) {
        let mut output = vec![HELD; length];
        (walk(levels, count, &mut output).numbers(), output)
    }

    /// The listing of all these levels, where none is unfit.
    fn listed(levels: &[Level]) -> Vec<u64> {
        let count = levels.len();
        let (answer, output) = walked(&table(levels), count as u64, count);
        assert_eq!(answer, [0, count as u64]);
        output
    }

    /// Which of these levels is unfit first. The output is as it was.
    fn unfit(levels: &[Level]) -> u64 {
        let (answer, output) = walked(&table(levels), levels.len() as u64, 9);
        assert_eq!((answer[0], output), (20, vec![HELD; 9]));
        answer[1]
    }

    /// Four levels down, back to the second, and a second one without a parent.
    const DOWN: [Level; 6] = [(0, 1), (1, 2), (2, 3), (3, 4), (1, 2), (0, 1)];

    #[test]
    fn levels_that_stand_under_their_parents_already() {
        assert_eq!(listed(&[(0, 1)]), [1]);
        assert_eq!(listed(&[(0, 1), (1, 2)]), [1, 2]);
        assert_eq!(listed(&DOWN), [1, 2, 3, 4, 5, 6]);
        // As in every reply.
        assert_eq!(listed(&[(0, 1), (0, 1), (0, 1)]), [1, 2, 3]);
    }

    #[test]
    fn children_behind_other_branches() {
        assert_eq!(listed(&[(0, 1), (0, 1), (1, 2)]), [1, 3, 2]);
        assert_eq!(listed(&[(0, 1), (0, 1), (2, 2), (1, 2)]), [1, 4, 2, 3]);
        assert_eq!(listed(&[(0, 1), (1, 2), (1, 2), (2, 3), (1, 2), (3, 3), (2, 3)]), [1, 2, 4, 7, 3, 6, 5]);
        // 1 has 4 and 6, and 4 has 7; 2 has 3 and 10, and 3 has 5 and 8; 9 has none.
        let scattered = [(0, 1), (0, 1), (2, 2), (1, 2), (3, 3), (1, 2), (4, 3), (3, 3), (0, 1), (2, 2)];
        assert_eq!(listed(&scattered), [1, 4, 7, 6, 2, 3, 5, 8, 10, 9]);
        // Two of each depth, each pair hung crosswise under the one before.
        let crossed = [(0, 1), (0, 1), (2, 2), (1, 2), (4, 3), (3, 3), (6, 4), (5, 4)];
        assert_eq!(listed(&crossed), [1, 4, 5, 8, 2, 3, 6, 7]);
        // Numbers are counted, and not read as text: 10 comes behind 9.
        let mut many = vec![(0, 1), (0, 1)];
        many.extend([(1, 2); 9]);
        assert_eq!(listed(&many), [1, 3, 4, 5, 6, 7, 8, 9, 10, 11, 2]);
    }

    #[test]
    fn a_parent_that_is_none() {
        // The level itself, one behind it, one behind all, and none of any table.
        assert_eq!(unfit(&[(1, 2)]), 1);
        assert_eq!(unfit(&[(0, 1), (2, 2)]), 2);
        assert_eq!(unfit(&[(0, 1), (3, 2), (0, 1)]), 2);
        assert_eq!(unfit(&[(0, 1), (4, 2), (0, 1)]), 2);
        assert_eq!(unfit(&[(0, 1), (0, 1), (u64::MAX, 2)]), 3);
        assert_eq!(unfit(&[(u64::MAX, 1)]), 1);
        assert_eq!(unfit(&[(1 << 32, 2), (0, 1)]), 1);
    }

    #[test]
    fn a_depth_that_does_not_follow() {
        // Without a parent it is 1.
        for depth in [0, 2, 3, 4, 5, u64::MAX] {
            assert_eq!(unfit(&[(0, depth)]), 1);
            assert_eq!(unfit(&[(0, 1), (0, depth)]), 2);
        }
        // Under a parent it is one more than the parent's.
        for depth in [0, 1, 3, 4, 5, u64::MAX] {
            assert_eq!(unfit(&[(0, 1), (1, depth)]), 2);
        }
        for depth in [0, 1, 2, 4, u64::MAX] {
            assert_eq!(unfit(&[(0, 1), (1, 2), (0, 1), (2, depth), (0, 1)]), 4);
        }
    }

    #[test]
    fn a_fifth_depth() {
        assert_eq!(unfit(&[(0, 1), (1, 2), (2, 3), (3, 4), (4, 5)]), 5);
        assert_eq!(unfit(&[(0, 1), (1, 2), (2, 3), (3, 4), (4, 4)]), 5);
        assert_eq!(unfit(&[(0, 1), (1, 2), (2, 3), (3, 4), (4, 1)]), 5);
    }

    #[test]
    fn the_first_unfit_level_is_named() {
        assert_eq!(unfit(&[(0, 1), (1, 3), (2, 4), (9, 9)]), 2);
        // One more than the greatest number there is.
        assert_eq!(unfit(&[(0, 1), (1, u64::MAX), (2, 0)]), 2);
        assert_eq!(unfit(&[(0, 2), (1, 3)]), 1);
    }

    #[test]
    fn no_level_at_all() {
        assert_eq!(walked(&[], 0, 0), ([0, 0], vec![]));
        assert_eq!(walked(&[], 0, 2), ([0, 0], vec![HELD; 2]));
        assert_eq!(walked(&table(&[(9, 9)]), 0, 2), ([0, 0], vec![HELD; 2]));
    }

    #[test]
    fn only_the_count_is_walked() {
        let levels = table(&[(0, 1), (0, 1), (1, 2), (9, 9)]);
        assert_eq!(walked(&levels, 1, 3), ([0, 1], vec![1, HELD, HELD]));
        assert_eq!(walked(&levels, 2, 3), ([0, 2], vec![1, 2, HELD]));
        assert_eq!(walked(&levels, 3, 3), ([0, 3], vec![1, 3, 2]));
        assert_eq!(walked(&levels, 4, 3), ([20, 4], vec![HELD; 3]));
    }

    #[test]
    fn room_is_the_lent_length_divided_by_four() {
        let levels = table(&DOWN);
        for length in 0..24 {
            let room = length as u64 / 4;
            assert_eq!(walked(&levels[..length], room, 6).0, [0, room]);
            for count in [room + 1, 7, 24, 1 << 62, u64::MAX] {
                assert_eq!(walked(&levels[..length], count, 6), ([20, 0], vec![HELD; 6]));
            }
        }
        assert_eq!(walked(&levels, 6, 6), ([0, 6], vec![1, 2, 3, 4, 5, 6]));
        // Four times this count is 0 again in 64 bits, and four times the other that of the six levels.
        assert_eq!(walked(&levels, 1 << 62, 6).0, [20, 0]);
        assert_eq!(walked(&levels, (1 << 62) + 6, 6).0, [20, 0]);
    }

    #[test]
    fn an_output_that_is_short_long_or_just_right() {
        let levels = table(&DOWN);
        for length in 0..6 {
            assert_eq!(walked(&levels, 6, length), ([21, 0], vec![HELD; length]));
        }
        assert_eq!(walked(&levels, 6, 6), ([0, 6], vec![1, 2, 3, 4, 5, 6]));
        assert_eq!(walked(&levels, 6, 8), ([0, 6], vec![1, 2, 3, 4, 5, 6, HELD, HELD]));
    }

    #[test]
    fn the_table_is_judged_before_the_output() {
        let levels = table(&[(0, 1), (1, 3)]);
        assert_eq!(walked(&levels, 2, 0).0, [20, 2]);
        assert_eq!(walked(&levels, 2, 1).0, [20, 2]);
        assert_eq!(walked(&levels, 3, 0).0, [20, 0]);
        assert_eq!(walked(&levels, 1, 0).0, [21, 0]);
    }
}
