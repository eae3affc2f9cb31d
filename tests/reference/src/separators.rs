//! The three separators (document 01, "Bytes, separators, segments").

/// The three separators of a transaction.
#[derive(Clone, Copy, Debug, PartialEq, Eq)]
pub struct Separators {
    /// Stands between the elements of a segment.
    pub element: u8,
    /// Stands between the components of an element.
    pub component: u8,
    /// Ends a segment.
    pub terminator: u8,
}

impl Separators {
    /// The standard set `*`, `:`, `~`.
    pub const STANDARD: Separators = Separators::new(b'*', b':', b'~');

    /// A set of three, fit or not.
    pub const fn new(element: u8, component: u8, terminator: u8) -> Separators {
        Separators { element, component, terminator }
    }

    /// Each is a byte 1 to 126, not a letter, digit, space, `.` or `-`, and the three differ.
    pub const fn fit(self) -> bool {
        fit_byte(self.element)
            && fit_byte(self.component)
            && fit_byte(self.terminator)
            && self.element != self.component
            && self.element != self.terminator
            && self.component != self.terminator
    }

    /// Whether the byte is one of the three.
    pub const fn holds(self, byte: u8) -> bool {
        byte == self.element || byte == self.component || byte == self.terminator
    }
}

/// Whether one byte may serve as a separator.
const fn fit_byte(byte: u8) -> bool {
    byte >= 1 && byte <= 126 && !byte.is_ascii_alphanumeric() && byte != b' ' && byte != b'.' && byte != b'-'
}
