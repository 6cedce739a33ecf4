//! Where a refusal is in its document, counted afresh.

use crate::Refusal;

/// A document's number, the line and the column.
#[derive(Clone, Copy, Debug, Default, PartialEq, Eq)]
pub struct Position {
    pub document: usize,
    pub line: usize,
    pub column: usize,
}

/// The numbers of refusals that have a place in a document.
const PLACED: std::ops::RangeInclusive<u8> = 2..=12;

/// By the text before the place; nothing where the refusal has no place in a document.
pub fn counted(document: &[u8], refusal: &Refusal) -> Position {
    if !PLACED.contains(&refusal.number) {
        return Position::default();
    }
    let before = std::str::from_utf8(&document[..refusal.place]).expect("whole characters before a place");
    let last = before.rsplit('\n').next().unwrap_or_default();
    Position { document: 0, line: before.matches('\n').count() + 1, column: last.chars().count() + 1 }
}
