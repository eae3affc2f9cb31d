//! The walk said plainly once more, for the tests to compare with.

use reference::LEVEL_NUMBERS;

/// The numbers that the bytes of a level table stand for in the vectors.
pub fn numbers_of(bytes: &[u8]) -> Vec<u64> {
    bytes.iter().map(|byte| if *byte == 255 { u64::MAX } else { u64::from(*byte) }).collect()
}

/// The walk of a level table, from each level to its children: the two numbers of its answer.
pub fn walk_plainly(levels: &[u64], count: u64, output: &mut [u64]) -> [u64; 2] {
    let (records, _) = levels.as_chunks::<LEVEL_NUMBERS>();
    if count > records.len() as u64 {
        return [20, 0];
    }
    let records = &records[..count as usize];
    if let Some(unfit) = (1..=count).find(|level| !fits(records, *level)) {
        return [20, unfit];
    }
    if (output.len() as u64) < count {
        return [21, 0];
    }
    let mut listed = Vec::new();
    list(records, 0, &mut listed);
    output[..listed.len()].copy_from_slice(&listed);
    [0, count]
}

/// Whether a level has no parent and depth 1, or an earlier one and a depth of one more, 4 at most.
fn fits(records: &[[u64; LEVEL_NUMBERS]], level: u64) -> bool {
    let [_, parent, depth, _] = records[level as usize - 1];
    if parent == 0 {
        depth == 1
    } else {
        parent < level && depth <= 4 && records[parent as usize - 1][2].checked_add(1) == Some(depth)
    }
}

/// Lists what has this parent, or none for 0, in file order, each followed by what is under it.
fn list(records: &[[u64; LEVEL_NUMBERS]], parent: u64, listed: &mut Vec<u64>) {
    for (level, record) in (1..).zip(records) {
        if record[1] == parent {
            listed.push(level);
            list(records, level, listed);
        }
    }
}
