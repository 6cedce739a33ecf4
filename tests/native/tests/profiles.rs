//! Profiles: the library against a plain reading on seeded random tables, and against answers written by hand.
//! DZINTRULO_SEED and DZINTRULO_COUNT set another seed and count.

use native::{jobs, plain, profile, profiles::Case, random, Limits, Profile};
use std::{collections::BTreeMap, env, fs, io::Write, path::Path};

const SEED: u64 = 1;
const COUNT: u64 = 100_000;

/// The numbers that reading a profile can give.
const NUMBERS: [u8; 7] = [1, 15, 39, 40, 41, 42, 43];

fn setting(name: &str, default: u64) -> u64 {
    match env::var(name) {
        Ok(text) => text.parse().unwrap_or_else(|_| panic!("{name} must be a number, not {text:?}")),
        Err(_) => default,
    }
}

/// The library's answer for parts that stand between guard bytes: these are not read, and not written.
fn guarded(case: &Case, guard: u8) -> Profile {
    const WIDTH: usize = 9;
    let between = |part: &[u8]| [&[guard; WIDTH][..], part, &[guard; WIDTH]].concat();
    let (table, text) = (between(&case.table), between(&case.text));
    let answer = profile(&table[WIDTH..table.len() - WIDTH], &text[WIDTH..text.len() - WIDTH]);
    assert!(table == between(&case.table) && text == between(&case.text), "lent bytes were written to");
    answer
}

#[test]
fn agrees_with_a_plain_reading() {
    let seed = setting("DZINTRULO_SEED", SEED);
    let count = setting("DZINTRULO_COUNT", COUNT);
    let mut random = random::Random::new(seed);
    let (mut refused, mut read) = (BTreeMap::<u8, u64>::new(), [0u64; 2]);

    for i in 0..count {
        let case = native::profiles::case(&mut random);
        let expected = plain::profile(&case.table, &case.text);
        // A guard byte may be a digit or the kind of a value: what is read of it would show.
        for guard in [b'1', 7] {
            let answer = guarded(&case, guard);
            assert!(
                answer == expected,
                "seed {seed}, case {i}: the library gives {answer:?}, a plain reading {expected:?}\n{:?}\n{}",
                case.table,
                case.text.escape_ascii(),
            );
        }
        match expected {
            Ok(limits) => read[usize::from(limits.edition) - 1] += 1,
            Err(number) => *refused.entry(number).or_default() += 1,
        }
    }

    // Straight to the stream, since cargo hides what a passing test prints.
    let listed: Vec<_> = refused.iter().map(|(number, times)| format!("{number}: {times}")).collect();
    writeln!(
        std::io::stdout(),
        "{count} random profiles (seed {seed}) agree: {} of edition 1 and {} of edition 2, refused {}",
        read[0],
        read[1],
        listed.join(", ")
    )
    .unwrap();

    assert!(count >= 100_000, "only {count} profiles");
    assert!(read.iter().all(|times| *times >= count / 20), "only {read:?} of {count} were read");
    for number in NUMBERS {
        let times = refused.get(&number).copied().unwrap_or(0);
        assert!(times >= count / 1_000, "refusal {number} came only {times} times in {count}");
    }
}

#[track_caller]
fn answers(what: &str, case: &Case, stated: Profile) {
    assert_eq!(guarded(case, 0), stated, "the library, {what}");
    assert_eq!(plain::profile(&case.table, &case.text), stated, "a plain reading, {what}");
}

/// The answer that four numbers state.
fn stated(numbers: &str) -> Profile {
    let numbers: Vec<u32> = numbers.split_whitespace().map(|number| number.parse().unwrap()).collect();
    match numbers[..] {
        [0, edition @ 1..=2, minimum, maximum] => Ok(Limits { edition: edition as u8, minimum, maximum }),
        [number, 0, 0, 0] => Err(number as u8),
        _ => panic!("not an answer: {numbers:?}"),
    }
}

#[test]
fn vectors() {
    let file = Path::new(env!("CARGO_MANIFEST_DIR")).join("../vectors/profile.txt");
    let text = fs::read_to_string(&file).unwrap_or_else(|error| panic!("{}: {error}", file.display()));
    let mut count = 0;
    for line in text.lines().filter(|line| !line.is_empty() && !line.starts_with('#')) {
        let (answer, tree) = line.split_once("  ").expect("an answer and a tree");
        answers(tree, &Case::of(tree.trim_start()), stated(answer));
        count += 1;
    }
    assert!(count > 0, "no vectors");
    writeln!(std::io::stdout(), "{count} profiles answered as stated").unwrap();
}

/// A file as it is written, resolved by the library.
#[test]
fn of_a_file() {
    let mut parts = [vec![0; 32_768], vec![0; 32_768], vec![0; 32_768]];
    let document = b"profile = 1\nunit = mm\nplate { min = 102, max = 300 }\nplate.max = ${?MAX}\n";
    let [trail, table, text] = &mut parts;
    let done = jobs::resolve(document, b"MAX=400\0", 256, trail, table, text).unwrap();
    // The environment's text is a string, and no number.
    assert_eq!(profile(&table[..done.table], &text[..done.text]), Err(42));
    let done = jobs::resolve(document, b"", 256, trail, table, text).unwrap();
    let limits = Limits { edition: 1, minimum: 10_200, maximum: 30_000 };
    assert_eq!(profile(&table[..done.table], &text[..done.text]), Ok(limits));
}

#[test]
fn lent_parts() {
    let table = |nulls: u16| [&[6], &nulls.to_be_bytes()[..], &vec![1; nulls.into()]].concat();
    answers("a table of 32,768 bytes", &Case { table: table(32_765), text: vec![] }, Err(39));
    answers("a table of 32,769 bytes", &Case { table: table(32_766), text: vec![] }, Err(1));
    let mut case = Case::of(r#"{profile:1,unit:"mm",plate:{min:1,max:2}}"#);
    case.text.resize(32_768, b'0');
    answers("a text of 32,768 bytes", &case, Ok(Limits { edition: 1, minimum: 100, maximum: 200 }));
    case.text.push(b'0');
    answers("a text of 32,769 bytes", &case, Err(1));
    answers("nothing", &Case::default(), Err(15));
    let cut = Case::of("{profile:1}");
    answers("a table that is cut off", &Case { table: cut.table[..12].to_vec(), text: cut.text }, Err(15));
}
