//! Resolve and check by the library and by the plain resolver, compared in every byte.

use crate::{documents, jobs, plain_resolve};
use std::{collections::BTreeMap, env, io::Write};

/// A number that the environment may set.
pub fn setting(name: &str, default: u64) -> u64 {
    match env::var(name) {
        Ok(text) => text.parse().unwrap_or_else(|_| panic!("{name} must be a number, not {text:?}")),
        Err(_) => default,
    }
}

/// A buffer between guard bytes, full of what a careless caller left there.
struct Guarded {
    bytes: Vec<u8>,
}

const GUARD: usize = 64;

impl Guarded {
    fn new(length: usize) -> Guarded {
        Guarded { bytes: vec![0xa5; GUARD + length + GUARD] }
    }

    fn buffer(&mut self) -> &mut [u8] {
        let end = self.bytes.len() - GUARD;
        &mut self.bytes[GUARD..end]
    }

    /// The guards stand, and the buffer holds `used` and zeroes behind it.
    fn holds(&self, used: &[u8]) -> bool {
        let (front, rest) = self.bytes.split_at(GUARD);
        let (buffer, back) = rest.split_at(rest.len() - GUARD);
        [front, back].iter().all(|guard| guard.iter().all(|byte| *byte == 0xa5))
            && buffer.starts_with(used)
            && buffer[used.len()..].iter().all(|byte| *byte == 0)
    }
}

/// Resolves by both and compares number, place, count, lengths and every byte; the number.
pub fn resolve_both(what: &str, case: &documents::Case) -> (u8, Option<plain_resolve::Sheet>) {
    let documents::Case { document, environment, budget, rooms } = case;
    let expected = plain_resolve::resolve(document, environment, *budget, *rooms);
    let [mut trail, mut table, mut text] = [rooms.trail, rooms.table, rooms.text].map(Guarded::new);
    let (document_before, environment_before) = (document.clone(), environment.clone());
    let answer = jobs::resolve(document, environment, *budget, trail.buffer(), table.buffer(), text.buffer());

    let shown = || format!("{what}: {:?}\nenvironment {environment:?}, budget {budget}, {rooms:?}", lossy(document));
    let said = expected.as_ref().map(jobs::Done::from).map_err(|refusal| *refusal);
    assert!(answer == said, "the library gives {answer:?}, the plain resolver {said:?}\n{}", shown());
    let sheet = expected.clone().unwrap_or_default();
    for (part, buffer, used) in
        [("trail", &trail, &sheet.trail), ("table", &table, &sheet.table), ("text", &text, &sheet.text)]
    {
        assert!(buffer.holds(used), "the {part} is not {used:?}\n{}", shown());
    }
    assert!(*document == document_before && *environment == environment_before, "an input was changed\n{}", shown());
    (said.map_or_else(|refusal| refusal.number, |_| 0), expected.ok())
}

/// Checks by both and compares; the number.
pub fn check_both(what: &str, case: &documents::Case, sheet: &plain_resolve::Sheet) -> u8 {
    let documents::Case { document, environment, .. } = case;
    let expected = plain_resolve::check(document, environment, &sheet.trail, &sheet.table, &sheet.text);
    let before = sheet.clone();
    let answer = jobs::check(document, environment, &sheet.trail, &sheet.table, &sheet.text);
    assert!(
        answer == expected && before == *sheet,
        "{what}: the library's check gives {answer:?}, the plain one {expected:?}\n{:?}\n{sheet:?}",
        lossy(document)
    );
    answer.map_or_else(|refusal| refusal.number, |()| 0)
}

fn lossy(document: &[u8]) -> String {
    String::from_utf8_lossy(document).into_owned()
}

/// Says how often each number came.
pub fn print(what: &str, seen: &BTreeMap<u8, u64>) {
    let listed: Vec<_> = seen.iter().map(|(number, times)| format!("{number}: {times}")).collect();
    // Straight to the stream, since cargo hides what a passing test prints.
    writeln!(std::io::stdout(), "{what} agree: {}", listed.join(", ")).unwrap();
}
