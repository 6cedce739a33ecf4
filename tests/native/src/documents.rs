//! Seeded random resolutions: documents, environments, budgets and rooms.

use crate::plain_resolve::{Rooms, Sheet};
use crate::random::{Random, NO_SPACES, WIDE_SPACES};

/// What one resolution is given.
pub struct Case {
    pub document: Vec<u8>,
    pub environment: Vec<u8>,
    pub budget: u64,
    pub rooms: Rooms,
}

pub fn case(random: &mut Random) -> Case {
    let mut document = match random.below(60) {
        0 | 1 => at_a_limit(random),
        2 | 3 => growing(random),
        _ => {
            let mut writer = Writer { random, out: String::new(), around: Vec::new() };
            writer.document();
            writer.out.into_bytes()
        }
    };
    if random.once_in(8) {
        damage(random, &mut document);
    }
    let environment = environment(random);
    let budget = if random.once_in(8) { random.pick(&[0, 1, 2, 3, 5, 256, 257, u64::MAX]) } else { 256 };
    let mut room = || random.pick(&[0, 3, 8, 20, 50, 100, 32_768, 40_000]);
    let mut rooms = Rooms { trail: room(), table: room(), text: room() };
    if !random.once_in(8) {
        rooms = Rooms::FULL;
    }
    Case { document, environment, budget, rooms }
}

/// Rooms that are just large enough for a sheet, or one byte short of it in one part.
pub fn tight(random: &mut Random, sheet: &Sheet) -> Rooms {
    let mut rooms = Rooms { trail: sheet.trail.len(), table: sheet.table.len(), text: sheet.text.len() };
    let short = match random.below(4) {
        0 => &mut rooms.trail,
        1 => &mut rooms.table,
        2 => &mut rooms.text,
        _ => return rooms,
    };
    *short = short.saturating_sub(1);
    rooms
}

fn environment(random: &mut Random) -> Vec<u8> {
    let mut environment = Vec::new();
    if random.once_in(3) {
        for _ in 0..=random.below(3) {
            environment.extend(random.pick(&["a", "b", "c.a", "d.b", "x", "x.y"]).as_bytes());
            environment.push(b'=');
            environment.extend(random.pick(&["", "v", "1", "x=y", "[1]", "é"]).as_bytes());
            environment.push(0);
        }
        if random.once_in(12) {
            damage(random, &mut environment);
        }
    }
    match random.below(400) {
        0 => b"x=1\0".repeat(64 + random.below(2)),
        1 => [b"x=", &vec![b'v'; 8_189 + random.below(2)][..], b"\0"].concat(),
        _ => environment,
    }
}

// ---- Documents

#[derive(Clone, Copy, PartialEq)]
enum Kind {
    Simple,
    Array,
    Object,
}

/// A name mostly stands for values of one kind, so that what substitutions find mostly joins and merges.
const SIMPLE: &[&str] = &["a", "b", "\"a\"", "f"];
const ARRAYS: &[&str] = &["e", "\"e\"", "g"];
const OBJECTS: &[&str] = &["c", "d", "h"];
#[rustfmt::skip]
const ODD_KEYS: &[&str] = &[
    "a b", "\"\"", "1.2", "true", "\"a.b\"", "é", "a . b", "a\u{a0}b", "a\u{200b}", "include", "-1", "a..b", "$a", "-x", "+",
];
const WORDS: &[&str] = &[
    "1",
    "-2.5e3",
    "true",
    "false",
    "null",
    "foo",
    "bar baz",
    "\"q\"",
    "\"\\n\\u00e9\"",
    "\"\"\"t\"t\"\"\"",
    "\"\"",
    "1x",
    "2020-01-01",
    "\"\\ud83d\\ude00\"",
    "a/b",
];
const ODD_WORDS: &[&str] =
    &["\"\\x\"", "\"\\ud800\"", "-", "$", "${", "${a#}", "${a..b}", "\"open", "+", "\\", "${?}", "-x"];
const GAPS: &[&str] = &["", "", "", " ", "  ", "\t"];
const SIGNS: &[&str] = &["=", ":", " = ", "=\n", "\u{a0}=", "=\u{3000}", "\u{2029}:\u{feff}"];
const LINES: &[&str] = &["\n", "\n\n", " \n ", " # c\n", " // c\n"];

struct Writer<'r> {
    random: &'r mut Random,
    out: String,
    /// The keys of the fields around, as they are written.
    around: Vec<String>,
}

impl Writer<'_> {
    fn pick(&mut self, from: &[&str]) {
        let picked = self.random.pick(from);
        self.out.push_str(picked);
    }

    /// Whitespace without a newline, or none; now and then a character that only looks like it.
    fn gap(&mut self) {
        match self.random.below(200) {
            0 => self.pick(NO_SPACES),
            1..=30 => self.pick(WIDE_SPACES),
            _ => self.pick(GAPS),
        }
    }

    fn document(&mut self) {
        let depth = 1 + self.random.below(4);
        match self.random.below(20) {
            0 => self.array(depth),
            1 => self.object(depth),
            _ => {
                let count = 1 + self.random.below(9);
                self.fields(depth, count);
            }
        }
    }

    fn separator(&mut self) {
        match self.random.below(100) {
            0 => self.out.push_str(",,"),
            1 => self.gap(),
            2..=5 => self.out.push_str("\n,\n"),
            6..=50 => self.pick(LINES),
            _ => self.out.push(','),
        }
    }

    fn list(&mut self, count: usize, mut member: impl FnMut(&mut Self)) {
        for i in 0..count {
            if i > 0 {
                self.separator();
            }
            self.gap();
            member(self);
        }
        if self.random.once_in(12) {
            self.pick(&[",", "\n", ",\n", "\u{2028}", ",\u{a0}"]);
        }
    }

    fn fields(&mut self, depth: usize, count: usize) {
        self.list(count, |writer| writer.field(depth));
    }

    fn object(&mut self, depth: usize) {
        let count = self.random.below(4);
        self.out.push('{');
        self.fields(depth.saturating_sub(1), count);
        self.out.push('}');
    }

    fn array(&mut self, depth: usize) {
        let count = self.random.below(4);
        self.out.push('[');
        self.list(count, |writer| {
            let kind = writer.kind(depth);
            writer.value(kind, depth.saturating_sub(1));
        });
        self.out.push(']');
    }

    fn kind(&mut self, depth: usize) -> Kind {
        match self.random.below(10) {
            0..=2 if depth > 0 => Kind::Object,
            3 | 4 if depth > 0 => Kind::Array,
            _ => Kind::Simple,
        }
    }

    fn name(&mut self, kind: Kind) {
        self.pick(match kind {
            Kind::Simple => SIMPLE,
            Kind::Array => ARRAYS,
            Kind::Object => OBJECTS,
        });
    }

    fn path(&mut self, kind: Kind) {
        while self.random.once_in(3) {
            self.name(Kind::Object);
            self.out.push('.');
        }
        self.name(kind);
    }

    fn field(&mut self, depth: usize) {
        let kind = self.kind(depth);
        let start = self.out.len();
        match self.random.below(60) {
            0 => self.pick(ODD_KEYS),
            // A value of another kind than the name's others, which hides them or is hidden.
            1..=4 => self.path(Kind::Object),
            5 => self.path(Kind::Simple),
            _ => self.path(kind),
        }
        let at = self.out.len();
        self.around.push(self.out[start..].to_string());
        self.value(kind, depth);
        self.around.pop();
        if !self.out[at..].starts_with('{') || self.random.once_in(2) {
            self.out.insert_str(at, self.random.pick(SIGNS));
        }
    }

    fn value(&mut self, kind: Kind, depth: usize) {
        self.piece(kind, depth);
        while self.random.once_in(3) {
            self.gap();
            self.piece(kind, depth);
        }
    }

    fn piece(&mut self, kind: Kind, depth: usize) {
        let kind = if self.random.once_in(60) { self.kind(depth) } else { kind };
        if self.random.below(20) < 9 {
            let required = self.random.once_in(7);
            self.pick(if required { &["${"] } else { &["${?", "${? "] });
            if self.random.once_in(12) {
                self.pick(WIDE_SPACES);
            }
            if self.random.once_in(20) {
                self.pick(&["x", "x.y", "a.b", "\"a.b\"", "a b"]);
            } else if self.random.once_in(4) && !self.around.is_empty() {
                // The field's own path: a look-back, if all around it is open.
                self.out.push_str(&self.around.join("."));
            } else {
                self.path(kind);
            }
            if self.random.once_in(12) {
                self.pick(WIDE_SPACES);
            }
            self.out.push('}');
            return;
        }
        match kind {
            Kind::Object => self.object(depth),
            Kind::Array => self.array(depth.saturating_sub(1)),
            Kind::Simple if self.random.once_in(120) => self.pick(ODD_WORDS),
            Kind::Simple => self.pick(WORDS),
        }
    }
}

/// Each value twice the one before, about as large as a value may be.
fn growing(random: &mut Random) -> Vec<u8> {
    let levels = 1 + random.below(6);
    let spare = random.below(40);
    let (first, twice) = match random.below(4) {
        // Texts, arrays of nulls, of texts, and nested arrays.
        0 => {
            let text = "x".repeat((16_384 >> levels) + 2 - random.below(5));
            (format!("\"{text}\""), "${v}${v}")
        }
        1 => (format!("[{}]", vec!["null"; (16_381 >> levels).min(1_500) + 20 - spare].join(",")), "${v}${v}"),
        2 => (format!("[{}]", vec!["\"abcd\""; (3_276 >> levels).min(900) + 20 - spare].join(",")), "${v}${v}"),
        _ => (format!("{}1{}", "[".repeat(31), "]".repeat(31)), "[${v}]"),
    };
    let mut document = format!("v0={first}\n");
    for level in 1..=levels {
        let before = format!("${{v{}}}", level - 1);
        document.push_str(&format!("v{level}={}\n", twice.replace("${v}", &before)));
    }
    if random.once_in(2) {
        // Only the table is too large then, or nothing at all.
        document.push_str(&(0..levels).map(|level| format!("v{level}=0\n")).collect::<String>());
    }
    document.into_bytes()
}

/// About as much of one thing as the limits allow.
fn at_a_limit(random: &mut Random) -> Vec<u8> {
    let more = random.below(3);
    let document = match random.below(9) {
        0 => format!("a={}{}", "[".repeat(30 + more), "]".repeat(30 + more)),
        1 => format!("{}=1", vec!["a"; 15 + more].join(".")),
        2 => format!("a=${{?{}}}", vec!["a"; 15 + more].join(".")),
        3 => format!("{}{{a.b.c=1{}", "{b=".repeat(28 + more), "}".repeat(29 + more)),
        4 => "a=1\n".repeat(1_023 + more),
        5 => format!("a=[{}]", vec!["1"; 1_022 + more].join(",")),
        6 => "a=${?x}\n".repeat(254 + more + random.below(2)),
        7 => format!("a={} ${{?x}}", "1 ".repeat(2_045 + more)),
        _ => format!("a=1#{}", "x".repeat(32_763 + more)),
    };
    document.into_bytes()
}

fn damage(random: &mut Random, bytes: &mut Vec<u8>) {
    let alphabet = b" \n,={}[]:$\"\\+#/.-?abc01tn\0\x1f\xc3\xa9\xff\xed\xa0";
    for _ in 0..=random.below(2) {
        let at = random.below(bytes.len() + 1);
        match random.below(5) {
            0 => bytes.insert(at, random.pick(alphabet)),
            4 => drop(bytes.splice(at..at, random.pick(WIDE_SPACES).bytes())),
            1 if random.once_in(3) => bytes.truncate(at),
            2 if at < bytes.len() => drop(bytes.remove(at)),
            _ if at < bytes.len() => bytes[at] = random.pick(alphabet),
            _ => {}
        }
    }
}
