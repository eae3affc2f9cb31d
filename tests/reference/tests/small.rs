//! Separators and rewriting, each by itself.

use reference::vectors::text::{in_fault, joined, W1};
use reference::{rewrite, Answer, Profile, Separators};

#[test]
fn the_standard_set() {
    assert_eq!(Separators::STANDARD, Separators { element: b'*', component: b':', terminator: b'~' });
    assert!(Separators::STANDARD.fit());
}

#[test]
fn fit_bytes() {
    let fit = |byte: u8| Separators::new(byte, 1, 2).fit() || Separators::new(byte, 3, 4).fit();
    let all: Vec<u8> = (0..=255).filter(|byte| fit(*byte)).collect();
    let mut expected: Vec<u8> = (1..=31).collect();
    expected.extend(b"!\"#$%&'()*+,/:;<=>?@[\\]^_`{|}~");
    assert_eq!(all, expected);
    for byte in 0..=255u8 {
        let others = if byte == 1 || byte == 2 { (3, 4) } else { (1, 2) };
        let fits = expected.contains(&byte);
        assert_eq!(Separators::new(byte, others.0, others.1).fit(), fits);
        assert_eq!(Separators::new(others.0, byte, others.1).fit(), fits);
        assert_eq!(Separators::new(others.0, others.1, byte).fit(), fits);
    }
}

#[test]
fn the_three_differ() {
    assert!(!Separators::new(b'*', b'*', b'~').fit());
    assert!(!Separators::new(b'*', b'~', b'*').fit());
    assert!(!Separators::new(b'~', b'*', b'*').fit());
    assert!(!Separators::new(b'*', b'*', b'*').fit());
}

/// Rewrites W1 or another text and gives the answer's numbers and the output.
fn rewritten(text: &str, new: Separators, length: usize) -> ([u64; 4], Vec<u8>) {
    let (mut segments, mut levels, mut output) = (vec![0; 90], vec![0; 40], vec![b'?'; length]);
    let (old, profile) = (Separators::STANDARD, Profile::Report);
    let answer = rewrite(text.as_bytes(), old, profile, new, &mut segments, &mut levels, &mut output);
    (answer.numbers(), output)
}

#[test]
fn rewriting_w1() {
    let (numbers, output) = rewritten(&joined(&W1), Separators::new(b'|', b'^', b'\n'), 80);
    assert_eq!(numbers, [0, 7, 2, 78]);
    let expected = "ST|842|0001\nBNR|11|NR7|20240301\nHL|1||RP|1\nHL|2|1|I|0\nNCD|1\nNCA||R1\nSE|7|0001\n??";
    assert_eq!(output, expected.as_bytes());
}

#[test]
fn rewriting_with_the_same_set_gives_the_same_bytes() {
    let (numbers, output) = rewritten(&joined(&W1), Separators::STANDARD, 78);
    assert_eq!(numbers, [0, 7, 2, 78]);
    assert_eq!(output, joined(&W1).as_bytes());
}

#[test]
fn rewriting_refuses_in_order() {
    let text = in_fault(&["NTE*GEN*A/B", "NCA**R1**5*EA:1"]);
    let length = text.len();
    let untouched = |length: usize| vec![b'?'; length];
    let new = Separators::new(b'/', b'^', b'|');
    assert_eq!(rewritten(&text, new, length), ([18, 5, 32, 2], untouched(length)));
    assert_eq!(rewritten(&text, new, 3), ([18, 5, 32, 2], untouched(3)));
    let new = Separators::new(b'|', b'^', b'_');
    assert_eq!(rewritten(&text, new, length - 1), ([19, 0, 0, 0], untouched(length - 1)));
    assert_eq!(rewritten(&text[1..], new, length), ([4, 1, 0, 0], untouched(length)));
    assert_eq!(
        rewritten(&text, Separators::new(b'|', b'|', b'_'), length),
        ([1, 0, 0, 1], untouched(length))
    );
    let (mut segments, mut levels, mut output) = (vec![5; 90], vec![6; 40], vec![7; 99]);
    let unfit = Separators::new(0, 1, 2);
    let (input, profile) = (text.as_bytes(), Profile::Report);
    let answer = rewrite(input, unfit, profile, unfit, &mut segments, &mut levels, &mut output);
    assert_eq!(answer, Answer::Refused { number: 1, segment: 0, byte: 0, element: 0 });
    assert_eq!((segments, levels, output), (vec![5; 90], vec![6; 40], vec![7; 99]));
}
