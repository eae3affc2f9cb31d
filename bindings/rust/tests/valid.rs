//! How many records are valid after a refusal, beside how many the call wrote.

use stormhlaw::{
    read, rewrite, Accepted, How, Level, Reason, Refusal, SegmentRecord, Separators, Valid, LONGEST,
};

const W1: [&str; 7] =
    ["ST*842*0001", "BNR*11*NR7*20240301", "HL*1**RP*1", "HL*2*1*I*0", "NCD*1", "NCA**R1", "SE*7*0001"];
const NEW: Separators = Separators { element: b'|', component: b'^', terminator: b'\'' };

/// What a record holds that no reading touched: no start, segment, row or level is as great.
const OLD_SEGMENT: SegmentRecord =
    SegmentRecord { start: u64::MAX, length: 0, row: u64::MAX, level: u64::MAX };
const OLD_LEVEL: Level = Level { segment: u64::MAX, parent: 0, depth: 0, code: 0 };

/// W1 with another segment in place of one of its own, counted from 1.
fn with(number: usize, segment: &str) -> Vec<u8> {
    let mut segments = W1;
    segments[number - 1] = segment;
    segments.iter().map(|segment| format!("{segment}~")).collect::<String>().into_bytes()
}

fn w1() -> Vec<u8> {
    with(1, W1[0])
}

/// What the bytes begin with, of every length.
fn parts(bytes: &[u8]) -> impl Iterator<Item = &[u8]> {
    (0..=bytes.len()).map(move |length| &bytes[..length])
}

/// Two lent tables of old records.
struct Lent {
    segments: Vec<SegmentRecord>,
    levels: Vec<Level>,
}

impl Lent {
    fn new(segments: usize, levels: usize) -> Lent {
        Lent { segments: vec![OLD_SEGMENT; segments], levels: vec![OLD_LEVEL; levels] }
    }

    /// How many records at the start of each table are old no more.
    fn written(&self) -> Valid {
        Valid {
            segments: self.segments.iter().take_while(|record| **record != OLD_SEGMENT).count(),
            levels: self.levels.iter().take_while(|record| **record != OLD_LEVEL).count(),
        }
    }

    fn read(&mut self, input: &[u8], separators: Separators) -> Result<Accepted, Refusal> {
        read(input, separators, How::new(), &mut self.segments, &mut self.levels)
    }

    fn rewrite(&mut self, input: &[u8], new: Separators, length: usize) -> Result<Accepted, Refusal> {
        let (old, how, mut output) = (Separators::STANDARD, How::strict(), vec![0; length]);
        rewrite(input, old, how, new, &mut self.segments, &mut self.levels, &mut output)
    }

    /// Tests that the answer has that reason, and that so many records are valid and so many were written.
    fn leaves(&self, answer: Result<Accepted, Refusal>, reason: Reason, segments: usize, levels: usize) {
        let refusal = answer.unwrap_err();
        assert_eq!(refusal.reason, reason);
        assert_eq!(refusal.valid(&self.segments), Valid { segments, levels }, "{refusal}");
        assert_eq!(self.written(), Valid { segments, levels }, "{refusal}");
    }
}

/// W1 with another segment is refused there, for that reason, and so many levels stand before it.
fn refused_there(reason: Reason, number: usize, segment: &str, levels: usize) {
    let mut lent = Lent::new(10, 5);
    let answer = lent.read(&with(number, segment), Separators::STANDARD);
    lent.leaves(answer, reason, number - 1, levels);
}

#[test]
fn answers_1_and_2_leave_none() {
    let twice = Separators { component: b'*', ..Separators::STANDARD };
    let mut lent = Lent::new(10, 5);
    let answer = lent.read(&w1(), twice);
    lent.leaves(answer, Reason::SeparatorsUnfit, 0, 0);
    let answer = lent.rewrite(&w1(), twice, 80);
    lent.leaves(answer, Reason::SeparatorsUnfit, 0, 0);
    let answer = lent.read(&vec![b'~'; LONGEST + 1], Separators::STANDARD);
    lent.leaves(answer, Reason::InputTooLong, 0, 0);
}

#[test]
fn answers_3_to_16_leave_what_stands_before() {
    let mut lent = Lent::new(10, 5);
    let answer = lent.read(&w1()[..77], Separators::STANDARD);
    lent.leaves(answer, Reason::NoTerminator, 6, 2);
    refused_there(Reason::TagUnknown, 5, "XXX*1", 2);
    refused_there(Reason::ByteUnfit, 2, "\tBNR*11*NR7*20240301", 0);
    refused_there(Reason::EmptyAtTheEnd, 5, "NCD*1*", 2);
    refused_there(Reason::NoRowFits, 5, "NCA**R1", 2);
    refused_there(Reason::ElementMissing, 4, "HL*2*1", 1);
    refused_there(Reason::TooMany, 4, "HL*2*1*I*0*0", 1);
    refused_there(Reason::ValueUnfit, 1, "ST*843*0001", 0);
    refused_there(Reason::NoteBroken, 6, "NCA**R1**5", 2);
    refused_there(Reason::LevelUsedBefore, 4, "HL*1*1*I*0", 1);
    refused_there(Reason::ParentUnknown, 4, "HL*2*9*I*0", 1);
    refused_there(Reason::LevelNotPermitted, 4, "HL*2*1*F*0", 1);
    refused_there(Reason::MarkUnfit, 4, "HL*2*1*I*2", 1);
    refused_there(Reason::ClosingWrong, 7, "SE*6*0001", 2);
}

#[test]
fn answer_17_leaves_what_stands_before() {
    let mut lent = Lent::new(6, 5);
    let answer = lent.read(&w1(), Separators::STANDARD);
    lent.leaves(answer, Reason::NoRoom, 6, 2);
    let mut lent = Lent::new(10, 1);
    let answer = lent.read(&w1(), Separators::STANDARD);
    lent.leaves(answer, Reason::NoRoom, 3, 1);
}

#[test]
fn answers_18_and_19_leave_all() {
    let mut lent = Lent::new(10, 5);
    let answer = lent.rewrite(&with(2, "BNR*11*N|7*20240301"), NEW, 80);
    lent.leaves(answer, Reason::DataEqualsSeparator, 7, 2);
    let mut lent = Lent::new(7, 2);
    let answer = lent.rewrite(&w1(), NEW, 77);
    lent.leaves(answer, Reason::OutputTooShort, 7, 2);
}

#[test]
fn every_part_of_w1_with_every_room() {
    let w1 = w1();
    let lines = W1.map(|segment| format!("{segment}~\r\n")).concat().into_bytes();
    for part in parts(&w1).chain(parts(&lines)) {
        for room in 0..9 * 4 {
            let mut lent = Lent::new(room / 4, room % 4);
            let valid = match lent.read(part, Separators::STANDARD) {
                Ok(accepted) => accepted.into(),
                Err(refusal) => refusal.valid(&lent.segments),
            };
            assert_eq!(valid, lent.written(), "{} bytes, room {room}", part.len());
        }
    }
}

#[test]
fn records_of_an_earlier_reading_do_not_count() {
    let mut lent = Lent::new(10, 5);
    lent.read(&w1(), Separators::STANDARD).unwrap();
    let count = |lent: &Lent, answer: Result<Accepted, Refusal>| answer.unwrap_err().valid(&lent.segments);
    let answer = lent.read(&with(4, "HL*2*9*I*0"), Separators::STANDARD);
    assert_eq!(count(&lent, answer), Valid { segments: 3, levels: 1 });
    let answer = lent.read(b"", Separators::STANDARD);
    assert_eq!(count(&lent, answer), Valid::default());
    let answer = lent.rewrite(b"ST*842*0001~BNR*11*NR7*20240301~HL*1**I~SE*4*0001~", NEW, 0);
    assert_eq!(count(&lent, answer), Valid { segments: 4, levels: 1 });
}

#[test]
fn any_refusal_and_any_table_give_counts_within_the_table() {
    let row = |row| SegmentRecord { row, ..OLD_SEGMENT };
    let tables =
        [vec![], vec![row(18); 3], vec![row(79); 3], vec![row(18), row(79), row(18)], vec![row(0); 3]];
    for table in &tables {
        for reason in Reason::ALL {
            for segment in [0, 1, 2, 3, 4, 5, usize::MAX] {
                let refusal = Refusal { reason, segment, byte: usize::MAX, element: usize::MAX };
                let valid = refusal.valid(table);
                assert!(valid.levels <= valid.segments && valid.segments <= table.len(), "{refusal}");
            }
        }
    }
}
