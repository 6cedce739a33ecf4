//! Lengths: the library against long arithmetic on seeded random texts, and against answers written by hand.
//! DZINTRULO_SEED and DZINTRULO_COUNT set another seed and count.

use native::{length, lengths, plain, random, Length};
use std::{collections::BTreeMap, env, io::Write};

const SEED: u64 = 1;
const COUNT: u64 = 100_000;

/// The numbers that reading a length can give.
const NUMBERS: [u8; 7] = [1, 15, 20, 21, 22, 23, 24];

fn setting(name: &str, default: u64) -> u64 {
    match env::var(name) {
        Ok(text) => text.parse().unwrap_or_else(|_| panic!("{name} must be a number, not {text:?}")),
        Err(_) => default,
    }
}

#[test]
fn agrees_with_long_arithmetic() {
    let seed = setting("DZINTRULO_SEED", SEED);
    let count = setting("DZINTRULO_COUNT", COUNT);
    let mut random = random::Random::new(seed);
    let mut seen = BTreeMap::<u8, u64>::new();

    for i in 0..count {
        let lengths::Case { table, text } = lengths::case(&mut random);
        let expected = plain::length(&table, &text);
        let answer = length(&table, &text);
        assert!(
            answer == expected,
            "seed {seed}, case {i}: the library gives {answer:?}, long arithmetic {expected:?}\n{table:?}\n{:?}",
            String::from_utf8_lossy(&text),
        );
        *seen.entry(answer.err().unwrap_or(0)).or_default() += 1;
    }

    // Straight to the stream, since cargo hides what a passing test prints.
    let listed: Vec<_> = seen.range(1..).map(|(number, times)| format!("{number}: {times}")).collect();
    let read = seen.get(&0).copied().unwrap_or(0);
    writeln!(
        std::io::stdout(),
        "{count} random lengths (seed {seed}) agree: {read} read, refused {}",
        listed.join(", ")
    )
    .unwrap();

    assert!(count >= 100_000, "only {count} lengths");
    assert!(read >= count / 10, "only {read} of {count} were read");
    for number in NUMBERS {
        let times = seen.get(&number).copied().unwrap_or(0);
        assert!(times >= count / 1_000, "refusal {number} came only {times} times in {count}");
    }
}

#[track_caller]
fn answers(table: &[u8], text: &[u8], stated: Length) {
    assert_eq!(length(table, text), stated, "the library");
    assert_eq!(plain::length(table, text), stated, "long arithmetic");
}

#[track_caller]
fn string(written: &[u8], stated: Length) {
    let size = (written.len() as u16).to_be_bytes();
    answers(&[5, 0, 0, size[0], size[1]], written, stated);
}

#[test]
fn written_by_hand() {
    string(b"2.6 mm", Ok(2_600));
    string(b"0.1 in", Ok(2_540));
    string(b"0.005 in", Ok(127));
    string(b"1000.0000 mm", Ok(1_000_000));
    string(b"5\n\tmm", Ok(5_000));
    for space in "\u{a0}\u{1680}\u{2000}\u{2003}\u{200a}\u{2028}\u{2029}\u{202f}\u{205f}\u{3000}\u{feff}".chars() {
        string(format!("5{space}mm").as_bytes(), Ok(5_000));
        string(format!("5 {space}{space}in").as_bytes(), Ok(127_000));
        for malformed in ["_5 mm", "5 mm_", "5_", "5._5mm", "5m_m"] {
            string(malformed.replace('_', &space.to_string()).as_bytes(), Err(20));
        }
    }
    for other in "\u{85}\u{180e}\u{200b}\u{2060}".chars() {
        string(format!("5{other}mm").as_bytes(), Err(20));
    }
    // The bytes of such a space, cut.
    for cut in [&b"5\xa0mm"[..], b"5\xc2mm", b"5\xe2\x80mm", b"5\x80\x80mm"] {
        string(cut, Err(20));
    }
    string(b"0.0001 mm", Err(23));
    string(b"0.00005 in", Err(23));
    string(b"1000000.5 um", Err(23));
    string(b"1000001 um", Err(24));
    string(b"-0 mm", Err(22));
    string(b"-1e5 mm", Err(20));
    string(b"5 \xffmm", Err(20));
    string(b"102", Err(21));
    answers(&[4, 0, 0, 0, 3], b"102", Err(21));
    answers(&[4, 0, 0, 0, 4], b"5 mm", Err(20));
}

#[test]
fn lent_parts() {
    // As many digits as a text part has room for, and a byte more.
    let text = |zeros| [b"1.", &vec![b'0'; zeros][..], b"in"].concat();
    answers(&[5, 0, 0, 128, 0], &text(32_764), Ok(25_400));
    answers(&[5, 0, 0, 128, 0], &text(32_765), Err(1));
    let nines = [&vec![b'9'; 32_766][..], b"mm"].concat();
    answers(&[5, 0, 0, 128, 0], &nines, Err(24));
    let table = |nulls: u16| [&[6], &nulls.to_be_bytes()[..], &vec![1; nulls.into()]].concat();
    answers(&table(32_765), b"", Err(20));
    answers(&table(32_766), b"", Err(1));
}
