//! The library against the plain look-up, on seeded random tables and paths. DZINTRULO_SEED and DZINTRULO_COUNT set
//! another seed and count.

use native::{look_up, plain, random};
use std::{collections::BTreeMap, env, io::Write};

const SEED: u64 = 1;
const COUNT: u64 = 200_000;

/// The numbers that a look-up can give.
const NUMBERS: [u8; 9] = [1, 2, 3, 4, 5, 7, 8, 15, 16];

fn setting(name: &str, default: u64) -> u64 {
    match env::var(name) {
        Ok(text) => text.parse().unwrap_or_else(|_| panic!("{name} must be a number, not {text:?}")),
        Err(_) => default,
    }
}

fn hex(bytes: &[u8]) -> String {
    bytes.iter().map(|byte| format!("{byte:02x}")).collect()
}

#[test]
fn agrees_with_the_plain_look_up() {
    let seed = setting("DZINTRULO_SEED", SEED);
    let count = setting("DZINTRULO_COUNT", COUNT);
    let mut random = random::Random::new(seed);
    let mut seen = BTreeMap::<u8, u64>::new();

    for i in 0..count {
        let case = random::case(&mut random);
        let expected = plain::look_up(&case.table, &case.text, &case.path);
        let answer = look_up(&case.table, &case.text, &case.path);
        assert!(
            answer == expected,
            "seed {seed}, case {i}: the library gives {answer:?}, the plain look-up {expected:?}\n\
             table {}\ntext  {}\npath  {}",
            hex(&case.table),
            hex(&case.text),
            hex(&case.path),
        );
        *seen.entry(answer.map_or_else(|refusal| refusal.number, |_| 0)).or_default() += 1;
    }

    // Straight to the stream, since cargo hides what a passing test prints.
    let listed: Vec<_> = seen.range(1..).map(|(number, times)| format!("{number}: {times}")).collect();
    let found = seen.get(&0).copied().unwrap_or(0);
    writeln!(
        std::io::stdout(),
        "{count} random look-ups (seed {seed}) agree: {found} found, refused {}",
        listed.join(", ")
    )
    .unwrap();

    // A short run is no test, and one in which an answer hardly comes up says nothing about it.
    assert!(count >= 100_000, "only {count} look-ups");
    assert!(found >= count / 10, "only {found} of {count} were found");
    for number in NUMBERS {
        let times = seen.get(&number).copied().unwrap_or(0);
        assert!(times >= count / 1_000, "refusal {number} came only {times} times in {count}");
    }
}
