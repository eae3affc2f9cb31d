//! The three separators.

#![forbid(unsafe_code)]

/// The three separators of a transaction, fit or not: reading tests them.
#[derive(Clone, Copy, Debug, PartialEq, Eq, Hash)]
pub struct Separators {
    /// Stands between the elements of a segment.
    pub element: u8,
    /// Stands between the components of an element.
    pub component: u8,
    /// Ends a segment.
    pub terminator: u8,
}

impl Separators {
    /// `*`, `:` and `~`.
    pub const STANDARD: Separators = Separators { element: b'*', component: b':', terminator: b'~' };
}

impl Default for Separators {
    fn default() -> Separators {
        Separators::STANDARD
    }
}
