//! The exported resolve and check as Rust calls them.

use crate::plain_resolve::Sheet;
use crate::positions::{self, Position};
use crate::Refusal;

/// What resolve says beside the three buffers: the count and the used lengths.
#[derive(Clone, Copy, Debug, PartialEq, Eq)]
pub struct Done {
    pub count: usize,
    pub trail: usize,
    pub table: usize,
    pub text: usize,
}

impl From<&Sheet> for Done {
    fn from(sheet: &Sheet) -> Done {
        Done { count: sheet.count, trail: sheet.trail.len(), table: sheet.table.len(), text: sheet.text.len() }
    }
}

/// The exported resolve, with its answer taken apart. Panics if a bit is set that its case leaves unused, and if a refusal's document, line
/// or column is not the one that is counted.
pub fn resolve(
    document: &[u8],
    environment: &[u8],
    budget: u64,
    trail: &mut [u8],
    table: &mut [u8],
    text: &mut [u8],
) -> Result<Done, Refusal> {
    let word = exported::resolve(document, environment, budget, trail, table, text);
    let field = |shift: u32, bits: u32| (word >> shift & ((1 << bits) - 1)) as usize;
    if let Some(refusal) = refusal(document, word) {
        return Err(refusal);
    }
    assert!(word >> 63 == 0, "done, with bits set past the lengths: {word:#x}");
    Ok(Done { count: field(6, 9), trail: field(15, 16), table: field(31, 16), text: field(47, 16) })
}

/// The exported check, likewise.
pub fn check(document: &[u8], environment: &[u8], trail: &[u8], table: &[u8], text: &[u8]) -> Result<(), Refusal> {
    let word = exported::check(document, environment, trail, table, text);
    if let Some(refusal) = refusal(document, word) {
        return Err(refusal);
    }
    assert!(word == 0, "accepted, with bits set: {word:#x}");
    Ok(())
}

fn refusal(document: &[u8], word: u64) -> Option<Refusal> {
    let number = (word % 64) as u8;
    if number == 0 {
        return None;
    }
    assert!(word >> 58 == 0, "refused, with bits set past the column: {word:#x}");
    let field = |shift: u32| usize::from((word >> shift) as u16);
    let refusal = Refusal { number, place: field(6) };
    let told = Position { document: field(22) % 16, line: field(26), column: field(42) };
    let counted = positions::counted(document, &refusal);
    assert!(told == counted, "{refusal:?}: the library tells {told:?}, and {counted:?} is counted");
    Some(refusal)
}

mod exported {
    extern "C" {
        // Nothing holds these to the library's own source: keep them equal to include/dzintrulo.h.
        fn dz_resolve(
            document: *const u8,
            document_len: usize,
            environment: *const u8,
            environment_len: usize,
            budget: u64,
            trail: *mut u8,
            trail_len: usize,
            table: *mut u8,
            table_len: usize,
            text: *mut u8,
            text_len: usize,
        ) -> u64;
        fn dz_check(
            document: *const u8,
            document_len: usize,
            environment: *const u8,
            environment_len: usize,
            trail: *const u8,
            trail_len: usize,
            table: *const u8,
            table_len: usize,
            text: *const u8,
            text_len: usize,
        ) -> u64;
    }

    pub fn resolve(
        document: &[u8],
        environment: &[u8],
        budget: u64,
        trail: &mut [u8],
        table: &mut [u8],
        text: &mut [u8],
    ) -> u64 {
        // SAFETY: each pointer comes with the length of its slice, the three that are written to are unshared, and the
        // function has no precondition.
        unsafe {
            dz_resolve(
                document.as_ptr(),
                document.len(),
                environment.as_ptr(),
                environment.len(),
                budget,
                trail.as_mut_ptr(),
                trail.len(),
                table.as_mut_ptr(),
                table.len(),
                text.as_mut_ptr(),
                text.len(),
            )
        }
    }

    pub fn check(document: &[u8], environment: &[u8], trail: &[u8], table: &[u8], text: &[u8]) -> u64 {
        // SAFETY: each pointer comes with the length of its slice, the function only reads, and it has no precondition.
        unsafe {
            dz_check(
                document.as_ptr(),
                document.len(),
                environment.as_ptr(),
                environment.len(),
                trail.as_ptr(),
                trail.len(),
                table.as_ptr(),
                table.len(),
                text.as_ptr(),
                text.len(),
            )
        }
    }
}
