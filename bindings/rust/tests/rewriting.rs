//! Rewriting with other separators.

use stormhlaw::{rewrite, Accepted, How, Level, Reason, Refusal, SegmentRecord, Separators};

const W1: &[u8] = b"ST*842*0001~BNR*11*NR7*20240301~HL*1**RP*1~HL*2*1*I*0~NCD*1~NCA**R1~SE*7*0001~";
const NEW: Separators = Separators { element: b'|', component: b'^', terminator: b'\'' };

/// The answer and the output, whose bytes were all `.` before.
fn rewritten(input: &[u8], new: Separators, length: usize) -> (Result<Accepted, Refusal>, Vec<u8>) {
    let mut output = vec![b'.'; length];
    let (mut segments, mut levels) = ([SegmentRecord::default(); 10], [Level::default(); 5]);
    let answer =
        rewrite(input, Separators::STANDARD, How::strict(), new, &mut segments, &mut levels, &mut output);
    (answer, output)
}

fn refused(reason: Reason, segment: usize, byte: usize, element: usize) -> Result<Accepted, Refusal> {
    Err(Refusal { reason, segment, byte, element })
}

#[test]
fn w1_with_other_separators() {
    let (answer, output) = rewritten(W1, NEW, 80);
    assert_eq!(answer, Ok(Accepted { segments: 7, levels: 2, bytes: 78 }));
    let wanted = "ST|842|0001'BNR|11|NR7|20240301'HL|1||RP|1'HL|2|1|I|0'NCD|1'NCA||R1'SE|7|0001'..";
    assert_eq!(String::from_utf8(output).unwrap(), wanted);
}

#[test]
fn the_old_separators_again_give_the_same_bytes() {
    assert_eq!(rewritten(W1, Separators::STANDARD, 78).1, W1);
}

#[test]
fn refusals_leave_the_output() {
    let unfit = Separators { element: b'A', ..NEW };
    let clash = W1.map_byte(20, b'|');
    for (answer, wanted) in [
        (rewritten(W1, unfit, 80), refused(Reason::SeparatorsUnfit, 0, 0, 1)),
        (rewritten(W1, NEW, 77), refused(Reason::OutputTooShort, 0, 0, 0)),
        (rewritten(&clash, NEW, 80), refused(Reason::DataEqualsSeparator, 2, 12, 2)),
        (rewritten(b"", NEW, 80), refused(Reason::NoTerminator, 1, 0, 0)),
    ] {
        assert_eq!(answer.0, wanted);
        assert!(answer.1.iter().all(|byte| *byte == b'.'));
    }
}

/// A copy with another byte at a place.
trait MapByte {
    fn map_byte(&self, at: usize, byte: u8) -> Vec<u8>;
}

impl MapByte for [u8] {
    fn map_byte(&self, at: usize, byte: u8) -> Vec<u8> {
        let mut copy = self.to_vec();
        copy[at] = byte;
        copy
    }
}
