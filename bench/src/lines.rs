//! Lines of a report, the same each time or with values that vary.

/// What an item's faults look like: some 25 bytes a segment with its terminator.
pub const FAULT: [&str; 8] = [
    "NCD*1*A*0001*SOLDER*BRIDGE",
    "NTE*GEN*SOLDER JOINT OPEN PIN 7",
    "DTM*002*20240301*1530",
    "REF*SE*M24-000178542",
    "QTY*01*25*EA",
    "NCA*1*R1**25*EA",
    "NTE*GEN*REWORKED AND TESTED AGAIN",
    "N1*ST*QUALITY DESK NORTH*92*A17",
];

/// What a reply says of a finding, in rows of its profile.
pub const REPLY: [&str; 8] = [
    "NCD*1*A*0001*SOLDER*BRIDGE",
    "NTE*GEN*SOLDER JOINT OPEN PIN 7",
    "DTM*002*20240301*1530",
    "REF*SE*M24-000178542",
    "AMT*1*25.50",
    "N1*SU*DEPOT SOUTH*92*B03",
    "NCA*1*R1**25*EA",
    "N1*ST*QUALITY DESK NORTH*92*A17",
];

/// Short plain segments.
pub const SHORT: [&str; 6] = ["NCD*1*A", "REF*A1*7", "REF*B*12", "QTY*1*25", "AMT*1*9", "RC*4*12"];

/// Segments of long elements.
pub const LONG: [&str; 3] = [
    "NCD*1*A",
    "NTE*GEN*THE LOT WAS OPENED AT THE DOCK AND TWELVE MODULES WERE TAKEN OUT FOR A TEST",
    "REF*ZZ*THE FULL TEXT OF THE FINDING AS THE SUPPLIER WROTE IT DOWN ON THE DAY OF THE DELIVERY, WITH THE NAMES OF ALL WHO WERE THERE",
];

/// Faults with quantities that have signs, points and exponents, and one with a second unit.
pub const QUANTITIES: [&str; 6] = [
    "NCD*1*A*0001*SOLDER*BRIDGE",
    "NCA*1*R1**-12.50*KG",
    "NCA*2*R2**0.125E-2*KG",
    "NCA*3*R3**.5*MR",
    "NCA*4*R4**1500*EA:12.5:1",
    "NTE*GEN*REWORKED AND TESTED AGAIN",
];

/// Words of a finding.
const WORDS: [&str; 12] =
    ["SOLDER", "JOINT", "OPEN", "PIN", "BRIDGE", "CRACK", "AT", "EDGE", "OF", "HOUSING", "SEAL", "LEAKS"];

/// Values that vary as a report's do, and are the same in every run.
pub struct Values(u64);

impl Values {
    pub fn new() -> Values {
        Values(0x9e37_79b9_7f4a_7c15)
    }

    /// A number from `least` to `most`.
    pub fn between(&mut self, least: usize, most: usize) -> usize {
        self.0 ^= self.0 << 13;
        self.0 ^= self.0 >> 7;
        self.0 ^= self.0 << 17;
        least + (self.0 >> 32) as usize % (most - least + 1)
    }

    /// One to `most` digits.
    fn digits(&mut self, most: usize) -> String {
        (0..self.between(1, most)).map(|_| char::from(b'1' + self.between(0, 8) as u8)).collect()
    }

    /// One to `most` words.
    fn words(&mut self, most: usize) -> String {
        let words: Vec<&str> =
            (0..self.between(1, most)).map(|_| WORDS[self.between(0, WORDS.len() - 1)]).collect();
        words.join(" ")
    }

    /// A day of 2024 and a time of it.
    fn moment(&mut self) -> String {
        let (month, day) = (self.between(1, 12), self.between(1, 28));
        format!("2024{month:02}{day:02}*{:02}{:02}", self.between(0, 23), self.between(0, 59))
    }

    /// A line of an item's faults, with values of its own.
    pub fn fault(&mut self, turn: usize) -> String {
        match turn % FAULT.len() {
            0 => format!("NCD*{}*A*{}*{}", self.digits(3), self.digits(4), self.words(1)),
            2 => format!("DTM*002*{}", self.moment()),
            3 => format!("REF*SE*M{}-{}", self.digits(3), self.digits(9)),
            4 => format!("QTY*01*{}*EA", self.digits(4)),
            5 => format!("NCA*{}*R{}**{}*EA", self.digits(2), self.digits(1), self.digits(4)),
            7 => format!("N1*ST*{}*92*A{}", self.words(4), self.digits(4)),
            _ => format!("NTE*GEN*{}", self.words(7)),
        }
    }

    /// A short plain line, with values of its own.
    pub fn short(&mut self, turn: usize) -> String {
        match turn % SHORT.len() {
            0 => format!("NCD*{}*A", self.digits(2)),
            3 => format!("QTY*1*{}", self.digits(3)),
            4 => format!("AMT*1*{}", self.digits(3)),
            5 => format!("RC*4*{}", self.digits(3)),
            _ => format!("REF*{}*{}", self.words(1), self.digits(4)),
        }
    }
}
