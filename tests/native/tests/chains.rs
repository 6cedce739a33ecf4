//! Chains of long values: the library against the plain resolver, on seeded random documents. DZINTRULO_SEED and DZINTRULO_COUNT set another seed
//! and count.

use native::both::{check_both, print, resolve_both, setting};
use native::{chains, documents, plain_resolve, random::Random};
use std::collections::BTreeMap;

const SEED: u64 = 1;
const COUNT: u64 = 20_000;

/// The numbers that such documents come to: done; undefined, circular, kinds that do not join, over the budget, too large, no room.
const NUMBERS: [u8; 7] = [0, 9, 10, 11, 12, 13, 14];

fn agree_on_chains() {
    let seed = setting("DZINTRULO_SEED", SEED);
    let count = setting("DZINTRULO_COUNT", COUNT);
    let mut random = Random::new(seed);
    let mut seen = BTreeMap::<u8, u64>::new();

    for i in 0..count {
        let what = format!("seed {seed}, chain {i}");
        let mut case = chains::case(&mut random);
        let (number, sheet) = resolve_both(&what, &case);
        *seen.entry(number).or_default() += 1;
        let Some(sheet) = sheet else { continue };
        assert_eq!(check_both(&what, &case, &sheet), 0, "{what}: the sheet handed back is refused");
        case.rooms = documents::tight(&mut random, &sheet);
        *seen.entry(resolve_both(&what, &case).0).or_default() += 1;
    }
    print(&format!("resolutions of {count} random chains of long values (seed {seed})"), &seen);

    // A short run is no test, and one in which an answer hardly comes up says nothing about it.
    assert!(count >= COUNT, "only {count} documents");
    for number in NUMBERS {
        let times = seen.get(&number).copied().unwrap_or(0);
        assert!(times >= count / 200, "number {number} came only {times} times in {count}");
    }
}

#[test]
fn agree() {
    plain_resolve::with_stack(agree_on_chains);
}
