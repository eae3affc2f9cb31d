//! Every ruled element at and around its bounds: one less than the least length, the least, the
//! most, one more; absent; and one element past the last.

use super::case::Told;
use super::text::{after_bnr, in_fault, in_heading, in_level, joined, reading};

/// How an element is filled to a length.
#[derive(Clone, Copy)]
enum Fill {
    /// Of capitals.
    Capitals,
    /// Of any data bytes.
    Mixed,
    /// Of digits.
    Digits,
    /// Of the start of a date.
    Date,
    /// Of the start of a time.
    Time,
}

/// An element's bounds.
type Bounds = (Fill, usize, usize);

/// A text of this length.
fn filled(fill: Fill, length: usize) -> String {
    let source = match fill {
        Fill::Capitals => "QZ9A",
        Fill::Mixed => "a.B-7 /x",
        Fill::Digits => "5071",
        Fill::Date => "20240229",
        Fill::Time => "23595999",
    };
    source.chars().cycle().take(length).collect()
}

/// The lengths to try; those of a time are all tried.
fn lengths((fill, least, most): Bounds) -> Vec<usize> {
    let mut lengths = match fill {
        Fill::Time => (0..=9).collect(),
        _ => vec![0, least - 1, least, most, most + 1],
    };
    lengths.dedup();
    lengths
}

pub fn cases() -> Vec<Told> {
    let reports = [st(), n1(), dtm(), hl(), lin(), nte(), nca(), components(), decimals(), se()].concat();
    reports.iter().map(|report| reading(report.as_bytes()).into()).collect()
}

/// The segment with every element in turn at every length; with every element in turn left out, the
/// rest of the segment with it or not; with a wrong kind of byte in every element in turn; and with
/// an element past the last.
fn varied(base: &str, bounds: &[Bounds]) -> Vec<String> {
    let pieces: Vec<&str> = base.split('*').collect();
    let mut segments = vec![base.to_string(), format!("{base}*X"), format!("{base}**X")];
    for (number, bounds) in (1..).zip(bounds) {
        let with = |text: &str| {
            let mut pieces = pieces.clone();
            pieces[number] = text;
            pieces.join("*")
        };
        segments.extend(lengths(*bounds).iter().map(|length| with(&filled(bounds.0, *length))));
        segments.push(pieces[..number].join("*"));
        segments.push(with(&wrong(*bounds)));
    }
    segments
}

/// A text of the least length that has one byte of another kind: for a text the component separator.
fn wrong((fill, least, _): Bounds) -> String {
    let odd = if matches!(fill, Fill::Mixed) { ":A" } else { "z" };
    filled(fill, least - 1) + odd
}

fn st() -> Vec<String> {
    let mut reports: Vec<String> = varied("ST*842*0001", &[(Fill::Capitals, 3, 3), (Fill::Mixed, 4, 9)])
        .iter()
        .map(|st| joined(&[st, "BNR*1", "HL*1**I", "SE*4*0001"]))
        .collect();
    for length in [3, 4, 9, 10] {
        let control = filled(Fill::Mixed, length);
        reports.push(joined(&[&format!("ST*842*{control}"), "BNR*1", "HL*1**I", &format!("SE*4*{control}")]));
    }
    reports
}

fn n1() -> Vec<String> {
    use Fill::{Capitals, Mixed};
    let bounds = [
        (Capitals, 2, 3),
        (Mixed, 1, 60),
        (Capitals, 1, 2),
        (Mixed, 2, 80),
        (Capitals, 2, 2),
        (Capitals, 2, 3),
    ];
    let segments = varied("N1*SU*NAME*92*A17*XX*YY", &bounds);
    segments.iter().map(|segment| in_heading(&[segment])).collect()
}

fn dtm() -> Vec<String> {
    use Fill::{Capitals, Date, Mixed, Time};
    let bounds =
        [(Capitals, 3, 3), (Date, 8, 8), (Time, 4, 8), (Capitals, 2, 2), (Capitals, 2, 3), (Mixed, 1, 35)];
    let segments = varied("DTM*002*20240301*1530*ES*RD8*PERIOD", &bounds);
    segments.iter().map(|segment| in_heading(&[segment])).collect()
}

fn hl() -> Vec<String> {
    use Fill::{Capitals, Mixed};
    let bounds = [(Mixed, 1, 12), (Mixed, 1, 12), (Capitals, 1, 2), (Capitals, 1, 1)];
    let mut reports: Vec<String> =
        varied("HL*2*1*I*0", &bounds).iter().map(|segment| after_bnr(&["HL*1**RP", segment])).collect();
    for length in [1, 11, 12, 13] {
        let name = filled(Mixed, length);
        let first = format!("HL*{name}**RP");
        reports.push(after_bnr(&[&first, &format!("HL*2*{name}*I")]));
        reports.push(after_bnr(&[&first, &format!("HL*2*{}*I", &name[1..])]));
        reports.push(after_bnr(&[&first, &format!("HL*{name}**I")]));
    }
    reports
}

fn lin() -> Vec<String> {
    let mut bounds = vec![(Fill::Mixed, 1, 20)];
    for _ in 0..15 {
        bounds.extend([(Fill::Capitals, 2, 2), (Fill::Mixed, 1, 48)]);
    }
    let base = format!("LIN*1{}", "*BP*A".repeat(15));
    let segments = varied(&base, &bounds);
    segments.iter().map(|segment| in_level(&[segment])).collect()
}

fn nte() -> Vec<String> {
    let segments = varied("NTE*GEN*TEXT", &[(Fill::Capitals, 3, 3), (Fill::Mixed, 1, 80)]);
    segments.iter().map(|segment| in_fault(&[segment])).collect()
}

fn nca() -> Vec<String> {
    use Fill::{Capitals, Digits, Mixed};
    let bounds = [(Mixed, 1, 20), (Capitals, 1, 2), (Mixed, 1, 80), (Digits, 1, 15)];
    let segments = varied("NCA*1*R1*TEXT*5*EA:1:2", &bounds);
    segments.iter().map(|segment| in_fault(&[segment])).collect()
}

/// NCA05: every component in turn at every length, and one to sixteen components.
fn components() -> Vec<String> {
    let bounds = [(Fill::Capitals, 2, 2), (Fill::Digits, 1, 15), (Fill::Digits, 1, 10)];
    let all: Vec<&str> = ["EA", "1", "2"].repeat(5);
    let mut composites = Vec::new();
    for place in 0..15 {
        let with = |text: &str| {
            let mut components = all.clone();
            components[place] = text;
            components.join(":")
        };
        let own = bounds[place % 3];
        composites.extend(lengths(own).iter().map(|length| with(&filled(own.0, *length))));
        composites.push(with(&wrong(own)));
        composites.push(all[..=place].join(":"));
    }
    composites.push(all.join(":") + ":EA");
    composites.push(all.join(":") + "::");
    composites.push(String::new());
    composites.iter().map(|composite| in_fault(&[&format!("NCA**R1**5*{composite}")])).collect()
}

/// Type R: only digits count for length.
fn decimals() -> Vec<String> {
    let most = filled(Fill::Digits, 15);
    let more = filled(Fill::Digits, 16);
    let mut numbers = vec![format!("-{most}"), format!("-{more}")];
    for at in [0, 1, 8, 15] {
        numbers.push(format!("{}.{}", &most[..at], &most[at..]));
        numbers.push(format!("-{}.{}", &most[..at], &most[at..]));
        numbers.push(format!("-{}.{}", &more[..at], &more[at..]));
    }
    numbers.extend(["-", ".", "-.", "0", "-0", "0.", ".0", "1..", "1-", "--1", "+1"].map(String::from));
    let component = |number: &String| format!("NCA**R1**5*EA:{number}:{number}");
    let element = |number: &String| format!("NCA**R1**{number}*EA");
    let segments = numbers.iter().map(element).chain(numbers.iter().map(component));
    segments.map(|segment| in_fault(&[&segment])).collect()
}

fn se() -> Vec<String> {
    let report = |se: &str| joined(&["ST*842*0001", "BNR*1", "HL*1**I", se]);
    let bounds = [(Fill::Digits, 1, 10), (Fill::Mixed, 4, 9)];
    let mut reports: Vec<String> = varied("SE*4*0001", &bounds).iter().map(|se| report(se)).collect();
    for width in [1, 2, 9, 10, 11] {
        reports.push(report(&format!("SE*{:0width$}*0001", 4)));
    }
    reports
}
