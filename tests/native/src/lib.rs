//! The exported jobs, lengths and profiles as Rust calls them, and what the tests hold them against.

pub mod both;
pub mod chains;
pub mod documents;
pub mod jobs;
pub mod lengths;
pub mod plain;
pub mod plain_pieces;
pub mod plain_read;
pub mod plain_resolve;
pub mod plain_tree;
pub mod plain_values;
pub mod positions;
pub mod profiles;
pub mod random;
pub mod sheets;

use std::ops::Range;

/// A refusal: document 01's number and place.
#[derive(Clone, Copy, Debug, PartialEq, Eq)]
pub struct Refusal {
    pub number: u8,
    pub place: usize,
}

/// What a look-up answers: where in the table the named value lies, or a refusal.
pub type Answer = Result<Range<usize>, Refusal>;

/// What reading a length answers: micrometres, or a refusal's number.
pub type Length = Result<u32, u8>;

/// The limits of a profile, in ten-thousandths of a millimetre.
#[derive(Clone, Copy, Debug, PartialEq, Eq)]
pub struct Limits {
    pub edition: u8,
    pub minimum: u32,
    pub maximum: u32,
}

/// What reading a profile answers: its limits, or a refusal's number.
pub type Profile = Result<Limits, u8>;

extern "C" {
    // Nothing holds this to the library's own source: keep it equal to include/dzintrulo.h.
    fn dz_look_up(
        table: *const u8,
        table_len: usize,
        text: *const u8,
        text_len: usize,
        path: *const u8,
        path_len: usize,
    ) -> u64;
    fn dz_length(table: *const u8, table_len: usize, text: *const u8, text_len: usize) -> u64;
    fn dz_profile(table: *const u8, table_len: usize, text: *const u8, text_len: usize) -> u64;
}

/// The exported look-up, with its answer taken apart.
pub fn look_up(table: &[u8], text: &[u8], path: &[u8]) -> Answer {
    // SAFETY: each pointer comes with the length of its slice, the function only reads, and it has no precondition.
    let word = unsafe { dz_look_up(table.as_ptr(), table.len(), text.as_ptr(), text.len(), path.as_ptr(), path.len()) };
    unpack(word)
}

/// The answer that a word of 64 bits stands for. Panics if a bit is set that its case leaves unused.
fn unpack(word: u64) -> Answer {
    let field = |shift| usize::from((word >> shift) as u16);
    match (word % 64) as u8 {
        0 => {
            assert!(word >> 38 == 0, "found, with bits set past the length: {word:#x}");
            Ok(field(6)..field(6) + field(22))
        }
        number => {
            assert!(word >> 22 == 0, "refused, with bits set past the place: {word:#x}");
            Err(Refusal { number, place: field(6) })
        }
    }
}

/// The exported reader of lengths, with its answer taken apart. Panics if a bit is set that its case leaves unused.
pub fn length(table: &[u8], text: &[u8]) -> Length {
    // SAFETY: each pointer comes with the length of its slice, the function only reads, and it has no precondition.
    let word = unsafe { dz_length(table.as_ptr(), table.len(), text.as_ptr(), text.len()) };
    match (word % 64) as u8 {
        0 => {
            assert!(word >> 26 == 0, "a length, with bits set past the micrometres: {word:#x}");
            Ok((word >> 6) as u32)
        }
        number => {
            assert!(word >> 6 == 0, "refused, with bits set past the number: {word:#x}");
            Err(number)
        }
    }
}

/// The exported reader of profiles, with its answer taken apart. Panics if a bit is set that its case leaves unused.
pub fn profile(table: &[u8], text: &[u8]) -> Profile {
    // SAFETY: each pointer comes with the length of its slice, the function only reads, and it has no precondition.
    let word = unsafe { dz_profile(table.as_ptr(), table.len(), text.as_ptr(), text.len()) };
    let limit = |shift: u32| (word >> shift) as u32 % (1 << 25);
    match (word % 64) as u8 {
        0 => {
            assert!(word >> 58 == 0, "limits, with bits set past the maximum: {word:#x}");
            Ok(Limits { edition: (word >> 6) as u8 % 4, minimum: limit(8), maximum: limit(33) })
        }
        number => {
            assert!(word >> 6 == 0, "refused, with bits set past the number: {word:#x}");
            Err(number)
        }
    }
}
