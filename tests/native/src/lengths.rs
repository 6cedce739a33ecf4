//! Seeded random lengths, sound and damaged.

use crate::random::{Random, NO_SPACES, WIDE_SPACES};

/// A value's records and their text part.
pub struct Case {
    pub table: Vec<u8>,
    pub text: Vec<u8>,
}

#[rustfmt::skip]
const NUMBERS: &[&str] = &[
    "0", "1", "2.6", "0.1", "-1", "-0", "0.0001", "1000", "1000.0", "1000.001", "1000000", "1000001", "39.370078", "39.37",
    "0.001", "0.0005", "0.005", "1e5", "-1e5", "1E2", "01", ".5", "5.", "+5", "", "-", "12.70", "0.000", "999999.9",
    "1000000.5", "1000000.0000", "-0.0001", "1.5.2", "39.3700787401574803149606299212598425", "10000000000000000000000",
];

const GAPS: &[&str] = &["", " ", " ", "  ", "\t", "\n", "\r", "\u{b}", "\u{1c}", "\u{1f}", " \n "];
const UNITS: &[&str] = &["mm", "um", "in"];

/// What is no gap, and what is no unit.
const OTHER_GAPS: &[&str] = &["\u{1b}", ".", "_"];
const OTHER_UNITS: &[&str] =
    &["", " ", "MM", "m", "inch", "mm ", "mm\u{a0}", "cm", "\u{b5}m", "e5mm", "mn", "im", "un"];

pub fn case(random: &mut Random) -> Case {
    let gaps = match random.below(60) {
        0 => OTHER_GAPS,
        1 => NO_SPACES,
        2..=16 => WIDE_SPACES,
        _ => GAPS,
    };
    let wide = if random.once_in(20) { random.pick(WIDE_SPACES) } else { "" };
    let gap = random.pick(gaps);
    let unit = random.once_in(20);
    let unit = random.pick(if unit { OTHER_UNITS } else { UNITS });
    let mut written = [&number(random), gap, wide, unit].concat().into_bytes();
    if random.once_in(15) {
        written = number(random).into_bytes();
    }
    if random.once_in(40) {
        written.splice(0..0, random.pick(&[" ", "\n", "x", "-", "0", "\u{a0}", "\u{feff}"]).bytes());
    }
    if random.once_in(30) {
        damage(random, &mut written);
    }
    let kind = if random.once_in(12) { random.pick(&[4, 4, 1, 2, 3]) } else { 5 };
    let before = random.pick(&[0, 0, 0, 3, 300]);
    let mut text = [&vec![b'7'; before][..], &written].concat();
    text.resize(text.len() + random.pick(&[0, 0, 0, 2]), b'7');
    let mut table = vec![kind];
    if kind > 3 {
        table.extend((before as u16).to_be_bytes());
        table.extend((written.len() as u16).to_be_bytes());
    }
    if random.once_in(40) {
        // In an array or an object it is no length.
        let head: &[u8] = if random.once_in(2) { &[6, 0, 1] } else { &[7, 0, 1, 8, 0, 0, 0, 0] };
        table.splice(0..0, head.iter().copied());
    }
    if random.once_in(30) {
        damage(random, &mut table);
    }
    if random.once_in(150) {
        // Around the limit of a lent part.
        text.resize(32_767 + random.below(3), b'0');
    }
    Case { table, text }
}

fn number(random: &mut Random) -> String {
    let sign = if random.once_in(12) { "-" } else { "" };
    let zeros = "0".repeat(random.pick(&[0, 0, 0, 1, 4, 30]));
    match random.below(20) {
        0..=2 => random.pick(NUMBERS).into(),
        // Few digits, so that all sums come up.
        3..=5 => {
            format!("{sign}{}.{:0width$}{zeros}", random.below(1200), random.below(1000), width = 1 + random.below(4))
        }
        6..=9 => format!("{sign}{}{zeros}", random.below(1_200)),
        10..=12 => format!("{sign}{}", random.below(1_200_000)),
        // Thousandths, five of which are 127 micrometres in inches; at the limits of a million micrometres.
        13..=15 => {
            let thousandths = if random.once_in(2) {
                random.below(50_000)
            } else {
                random.pick(&[39_370, 1_000_000]) - 5 + random.below(10)
            };
            format!("{sign}{}.{:03}{zeros}", thousandths / 1000, thousandths % 1000)
        }
        // Many digits, before the dot or behind it.
        16 | 17 => {
            let length = random.pick(&[10, 20, 40, 300, 3_000]);
            let digits: String = (0..length).map(|_| char::from(b'0' + random.below(10) as u8)).collect();
            format!("{sign}{}.{digits}{zeros}", 1 + random.below(9))
        }
        18 => format!("{sign}0.{}{}", "0".repeat(random.pick(&[3, 20, 300, 30_000])), random.pick(&["", "1", "5"])),
        _ => format!("{sign}{}{zeros}", "9".repeat(random.pick(&[1, 6, 7, 10, 20, 300, 3_000]))),
    }
}

fn damage(random: &mut Random, bytes: &mut Vec<u8>) {
    let at = random.below(bytes.len() + 1);
    match random.below(5) {
        0 if at < bytes.len() => bytes[at] ^= 1 << random.below(8),
        1 if at < bytes.len() => bytes[at] = random.byte(),
        2 if at < bytes.len() => drop(bytes.remove(at)),
        3 => bytes.truncate(at),
        _ => bytes.insert(at, random.pick(b" 0.5-me")),
    }
}
