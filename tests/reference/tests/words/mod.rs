//! Every short word, for the tests that leave none out.

/// All words of up to so many of these letters, shorter ones first.
pub fn words(letters: &[u8], longest: usize) -> Vec<Vec<u8>> {
    let mut all = vec![Vec::new()];
    let mut from = 0;
    for _ in 0..longest {
        let shorter = all[from..].to_vec();
        from = all.len();
        for word in shorter {
            all.extend(letters.iter().map(|letter| [&word[..], &[*letter]].concat()));
        }
    }
    all
}
