//! Trees of profiles, sound and damaged, laid out as tables: seeded random ones, and those that are written by hand.

use crate::random::Random;

/// A table and its text part.
#[derive(Default)]
pub struct Case {
    pub table: Vec<u8>,
    pub text: Vec<u8>,
}

impl Case {
    /// A tree in the notation of tests/vectors/profile.txt.
    pub fn of(tree: &str) -> Case {
        let mut case = Case::default();
        let rest = case.value(tree);
        assert!(rest.is_empty(), "behind the tree: {rest:?}");
        case
    }

    fn value<'a>(&mut self, tree: &'a str) -> &'a str {
        match tree.as_bytes()[0] {
            b'{' => self.members(7, &tree[1..], '}'),
            b'[' => self.members(6, &tree[1..], ']'),
            b'"' => {
                let (string, rest) = tree[1..].split_once('"').expect("a closing quote");
                self.word(5, string);
                rest
            }
            _ => {
                let (word, rest) = tree.split_at(tree.find([',', '}', ']']).unwrap_or(tree.len()));
                match ["null", "false", "true"].iter().position(|simple| *simple == word) {
                    Some(kind) => self.table.push(kind as u8 + 1),
                    None => self.word(4, word),
                }
                rest
            }
        }
    }

    /// The members up to `close`; the count is written when all are known.
    fn members<'a>(&mut self, kind: u8, tree: &'a str, close: char) -> &'a str {
        let head = self.table.len();
        self.table.extend([kind, 0, 0]);
        let (mut count, mut rest) = (0u16, tree);
        while !rest.starts_with(close) {
            if kind == 7 {
                let (key, after) = rest.split_once(':').expect("a key");
                self.word(8, key.trim_matches('"'));
                rest = after;
            }
            rest = self.value(rest);
            rest = rest.strip_prefix(',').unwrap_or(rest);
            count += 1;
        }
        self.table[head + 1..head + 3].copy_from_slice(&count.to_be_bytes());
        &rest[1..]
    }

    fn word(&mut self, kind: u8, word: &str) {
        self.table.push(kind);
        self.table.extend((self.text.len() as u16).to_be_bytes());
        self.table.extend((word.len() as u16).to_be_bytes());
        self.text.extend(word.bytes());
    }
}

#[rustfmt::skip]
const BARE: &[&str] = &[
    "0", "1", "7", "99", "100000", "99999", "100001", "00", "01", "-0", "1.0", "1e2", "100000000000000000000", "3937", "12", "1_0",
    "+1", "x",
];

#[rustfmt::skip]
const WRITTEN: &[&str] = &[
    "0 mm", "2.6 mm", "0.1 in", "2540um", "2.54 mm", "1000 mm", "1000.0001 mm", "1001 mm", "-1 mm", "5", "0.0001 mm", "1e2 mm",
    "3 cm", " 1 mm", "1\u{a0}mm", "2.600 mm", "39 in", "39.37 in", "40 in", "",
];

fn length(random: &mut Random, bare: bool, sound: bool) -> String {
    let from = if bare { BARE } else { WRITTEN };
    let word = match random.below(6) {
        0 if bare => random.below(100_003).to_string(),
        0 => format!("{}.{:03} {}", random.below(1_100), random.below(1_000), random.pick(&["mm", "in"])),
        _ => random.pick(if sound { &from[..6] } else { from }).to_string(),
    };
    if bare && !random.once_in(40) {
        word
    } else {
        format!("\"{word}\"")
    }
}

/// A value that is seldom right where it stands.
fn other(random: &mut Random) -> &'static str {
    random.pick(&["null", "true", "false", "[]", "{}", "\"\"", "\"1\"", "[1]", "3", "{min:1,max:2}", "\"mm\""])
}

/// A member, which is now and then left out, doubled, or another value.
fn member(random: &mut Random, to: &mut Vec<String>, key: &str, value: String, odd: usize) {
    if random.once_in(odd) {
        let value = other(random);
        to.push(format!("{key}:{value}"));
        if random.once_in(2) {
            return;
        }
    }
    if !random.once_in(odd) {
        to.push(format!("{key}:{value}"));
    }
}

fn object(random: &mut Random, mut members: Vec<String>) -> String {
    if !members.is_empty() && random.once_in(3) {
        let first = random.below(members.len());
        members.rotate_left(first);
    }
    format!("{{{}}}", members.join(","))
}

pub fn case(random: &mut Random) -> Case {
    let odd = random.pick(&[8, 30, 200]);
    let (first, sound) = (random.once_in(2), !random.once_in(3));
    let mut plate = Vec::new();
    for key in ["min", "max"] {
        let bare = first != random.once_in(30);
        let value = length(random, bare, sound);
        member(random, &mut plate, key, value, odd);
    }
    let mut root = Vec::new();
    let edition = if random.once_in(odd) { random.pick(&["0", "3", "01", "1.0", "12", "\"1\""]) } else { "" };
    let named = if first { "1" } else { "2" };
    member(random, &mut root, "profile", if edition.is_empty() { named } else { edition }.into(), 3 * odd);
    if first != random.once_in(odd) {
        let unit = if random.once_in(odd) { random.pick(&["um", "MM", "", " mm"]) } else { random.pick(&["mm", "in"]) };
        member(random, &mut root, "unit", format!("\"{unit}\""), odd);
    }
    if random.once_in(9) {
        root.push("\"plate.min\":1".into());
    }
    let plate = object(random, plate);
    member(random, &mut root, "plate", plate, odd);
    let tree = object(random, root);
    let mut case = Case::of(if random.once_in(80) { other(random) } else { &tree });
    if random.once_in(30) {
        damage(random, &mut case.table);
    }
    if random.once_in(200) {
        // Around the limit of a lent part.
        let length = 32_767 + random.below(3);
        if random.once_in(2) { &mut case.text } else { &mut case.table }.resize(length, 1);
    }
    case
}

fn damage(random: &mut Random, bytes: &mut Vec<u8>) {
    let at = random.below(bytes.len() + 1);
    match random.below(4) {
        0 if at < bytes.len() => bytes[at] ^= 1 << random.below(8),
        1 if at < bytes.len() => bytes[at] = random.byte(),
        2 => bytes.truncate(at),
        _ => bytes.insert(at, random.byte()),
    }
}
