//! Resolve and check: the library against the plain resolver, on seeded random documents. DZINTRULO_SEED and
//! DZINTRULO_COUNT set another seed and count.

use native::both::{check_both, print, resolve_both, setting};
use native::{documents, plain_resolve, random::Random, sheets};
use std::collections::BTreeMap;

const SEED: u64 = 1;
const COUNT: u64 = 100_000;

/// The numbers that each job can give, 0 for done.
const RESOLVE: [u8; 15] = [0, 1, 2, 3, 4, 5, 6, 7, 8, 9, 10, 11, 12, 13, 14];
const CHECK: [u8; 3] = [0, 1, 17];

fn agree_on_random_documents() {
    let seed = setting("DZINTRULO_SEED", SEED);
    let count = setting("DZINTRULO_COUNT", COUNT);
    let mut random = Random::new(seed);
    let (mut resolved, mut checked) = (BTreeMap::<u8, u64>::new(), BTreeMap::<u8, u64>::new());

    for i in 0..count {
        let what = format!("seed {seed}, case {i}");
        let mut case = documents::case(&mut random);
        let (number, sheet) = resolve_both(&what, &case);
        *resolved.entry(number).or_default() += 1;
        let Some(sheet) = sheet else { continue };

        // What resolve hands back is accepted; other sheets of the document as both say.
        assert_eq!(check_both(&what, &case, &sheet), 0, "{what}: the sheet handed back is refused");
        for _ in 0..2 {
            let number = check_both(&what, &case, &sheets::lent(&mut random, &sheet));
            *checked.entry(number).or_default() += 1;
        }
        case.rooms = documents::tight(&mut random, &sheet);
        *resolved.entry(resolve_both(&what, &case).0).or_default() += 1;
    }
    print(&format!("resolutions of {count} random documents (seed {seed})"), &resolved);
    print("checks of their sheets", &checked);

    // A short run is no test, and one in which an answer hardly comes up says nothing about it.
    assert!(count >= COUNT, "only {count} documents");
    assert!(resolved[&0] >= count / 4 && checked[&0] >= count / 8 && checked[&17] >= count / 8);
    for (numbers, seen) in [(&RESOLVE[..], &resolved), (&CHECK[..], &checked)] {
        for number in numbers {
            let times = seen.get(number).copied().unwrap_or(0);
            assert!(times >= count / 1_000, "number {number} came only {times} times in {count}");
        }
    }
}

#[test]
fn agree() {
    plain_resolve::with_stack(agree_on_random_documents);
}
