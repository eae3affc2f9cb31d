//! How fast `read` is: nanoseconds for each byte and each call, on reports of several sizes.

use reference::{read, Answer, LineEnds, Profile, Separators, LEVEL_NUMBERS, SEGMENT_NUMBERS};
use std::hint::black_box;
use std::time::Instant;

const W1: &str = "ST*842*0001~BNR*11*NR7*20240301~HL*1**RP*1~HL*2*1*I*0~NCD*1~NCA**R1~SE*7*0001~";

/// A report with so many items, each with a part, a fault and what was done about it.
fn items(count: usize) -> Vec<u8> {
    let mut text = String::from("ST*842*0001~BNR*11*NR7*20240301~N1*SU*ASSEMBLER ONE*92*A17~HL*R**RP*1~");
    let mut segments = 4;
    for item in 0..count {
        text +=
            &format!("HL*{}*R*I*0~LIN*1*BP*PART {item}*LT*LOT77~REF*SE*{item:06}~QTY*01*25*EA~", item + 1);
        text +=
            "NCD*1*A~NTE*GEN*SOLDER JOINT OPEN ON PIN 7~DTM*002*20240301*1530~NCA*1*R1**25*EA~N1*ST*DESK~";
        segments += 9;
    }
    text += &format!("SE*{}*0001~", segments + 1);
    text.into_bytes()
}

/// A report with one item and so many faults.
fn faults(count: usize) -> Vec<u8> {
    let mut text = String::from("ST*842*0001~BNR*11*NR7*20240301~HL*1**RP*1~HL*2*1*I*0~");
    for fault in 0..count {
        text += &format!(
            "NCD*{fault}*A~NTE*GEN*SOLDER JOINT OPEN ON PIN 7~DTM*002*20240301*1530~NCA*1*R1**25*EA~"
        );
    }
    text += &format!("SE*{}*0001~", 4 + 4 * count + 1);
    text.into_bytes()
}

/// A report with one item and so many BINs of so many bytes, all of them separators.
fn bins(count: usize, length: usize) -> Vec<u8> {
    let separators: String = "*:~".chars().cycle().take(length).collect();
    let mut text = String::from("ST*842*0001~BNR*11*NR7*20240301~HL*1**RP*1~HL*2*1*I*0~");
    for fault in 0..count {
        text += &format!("NCD*{fault}*A~EFI*1*JPG~BIN*{length}*{separators}~");
    }
    text += &format!("SE*{}*0001~", 4 + 3 * count + 1);
    text.into_bytes()
}

/// The report with CR LF between its segments.
fn in_lines(report: &[u8]) -> Vec<u8> {
    let segments: Vec<&[u8]> = report.split_inclusive(|byte| *byte == b'~').collect();
    segments.join(&b"\r\n"[..])
}

fn measure(name: &str, input: &[u8], times: usize) {
    let mut segments = vec![0; SEGMENT_NUMBERS * 200_000];
    let mut levels = vec![0; LEVEL_NUMBERS * 20_000];
    let mut best = f64::MAX;
    for _ in 0..5 {
        let start = Instant::now();
        for _ in 0..times {
            let (set, line_ends) = (Separators::STANDARD, black_box(LineEnds::Skipped));
            let profile = black_box(Profile::Report);
            let answer = read(black_box(input), set, line_ends, profile, &mut segments, &mut levels);
            assert!(matches!(black_box(answer), Answer::Accepted { .. }), "{answer:?}");
        }
        best = best.min(start.elapsed().as_nanos() as f64 / times as f64);
    }
    println!("{name}: {} bytes, {best:.0} ns, {:.3} ns a byte", input.len(), best / input.len() as f64);
}

fn main() {
    let only = std::env::args().nth(1);
    let reports = [
        ("W1", W1.as_bytes().to_vec(), 200_000),
        ("100 items", items(100), 2_000),
        ("1000 items", items(1000), 50),
        ("4000 items", items(4000), 5),
        ("10000 faults", faults(10_000), 20),
        ("10000 faults, CR LF", in_lines(&faults(10_000)), 20),
        ("2000 BINs", bins(2_000, 45), 500),
        ("one BIN", bins(1, 900_000), 100_000),
    ];
    for (name, input, times) in &reports {
        if only.as_ref().is_none_or(|only| only == name) {
            measure(name, input, *times);
        }
    }
}
