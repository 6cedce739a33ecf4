//! Seeded random look-ups, sound and damaged: what a resolver would write and what it never would.

/// A small generator (SplitMix64), so that a seed means the same cases everywhere.
pub struct Random(u64);

impl Random {
    pub fn new(seed: u64) -> Random {
        Random(seed)
    }

    pub(crate) fn next(&mut self) -> u64 {
        self.0 = self.0.wrapping_add(0x9e37_79b9_7f4a_7c15);
        let mut z = self.0;
        z = (z ^ z >> 30).wrapping_mul(0xbf58_476d_1ce4_e5b9);
        z = (z ^ z >> 27).wrapping_mul(0x94d0_49bb_1331_11eb);
        z ^ z >> 31
    }

    pub fn below(&mut self, n: usize) -> usize {
        (self.next() % n as u64) as usize
    }

    /// True once in `n` times.
    pub fn once_in(&mut self, n: usize) -> bool {
        self.below(n) == 0
    }

    pub(crate) fn byte(&mut self) -> u8 {
        self.next() as u8
    }

    pub fn pick<T: Copy>(&mut self, from: &[T]) -> T {
        from[self.below(from.len())]
    }
}

/// Whitespace of several bytes, and what only looks like it.
#[rustfmt::skip]
pub(crate) const WIDE_SPACES: &[&str] = &[
    "\u{a0}", "\u{1680}", "\u{2000}", "\u{2001}", "\u{2002}", "\u{2003}", "\u{2004}", "\u{2005}", "\u{2006}", "\u{2007}",
    "\u{2008}", "\u{2009}", "\u{200a}", "\u{2028}", "\u{2029}", "\u{202f}", "\u{205f}", "\u{3000}", "\u{feff}",
];
pub(crate) const NO_SPACES: &[&str] = &[
    "\u{85}", "\u{a1}", "\u{1681}", "\u{180e}", "\u{200b}", "\u{2027}", "\u{202a}", "\u{2060}", "\u{3001}", "\u{fefe}",
];

/// What one look-up is given.
pub struct Case {
    pub table: Vec<u8>,
    pub text: Vec<u8>,
    pub path: Vec<u8>,
}

pub fn case(random: &mut Random) -> Case {
    let value = root(random);
    let path = path(random, &value);
    let mut sheet = Sheet::default();
    if random.once_in(4) {
        // Texts need not start at 0, nor fill the part.
        sheet.text = b"spare".to_vec();
    }
    sheet.share = random.once_in(4);
    sheet.write(&value);
    if random.once_in(4) {
        damage(random, &mut sheet);
    }
    if random.once_in(500) {
        // Around the limit of a lent part.
        let length = 32_767 + random.below(3);
        let part = if random.once_in(2) { &mut sheet.text } else { &mut sheet.table };
        part.resize(length, 1);
    }
    Case { table: sheet.table, text: sheet.text, path }
}

// ---- Tables

enum Value {
    Simple(u8),
    Text(u8, Vec<u8>),
    Array(Vec<Value>),
    Object(Vec<(Vec<u8>, Value)>),
}

/// Few names, so that paths hit and keys are equal often; each of them asks something of a path's reader.
#[rustfmt::skip]
const NAMES: &[&[u8]] = &[
    b"a", b"a", b"b", b"b", b"ab", b"c", b"", b" ", b" a", b"a ", b"a b", b"a.b", b".", b"true", b"null",
    b"falsehood", b"0", b"10", b"-1", b"1.5", b"1e+2", b"-", b"a-b", b"a/b", b"a//b", b"#", b"$", b"${a}", b"\"",
    b"\"\"\"", b"\\", b"/", b"\n", b"\t", b"\x00", b"\x08\x0c\r", b"\x1f", b"\x7f", b"\xc3\xa9", b"\xc2\xa0",
    b"\xe2\x82\xac", b"\xef\xbb\xbf", b"\xef\xbf\xbf", b"\xf0\x9f\x98\x80", b"\xf4\x8f\xbf\xbf", b"\xff", b"\xc3",
    b"\xed\xa0\x80", b"plate", b"minimum", b"a\xc2\xa0b", b"\xe3\x80\x80a", b"a\xe2\x80\x8b",
];

fn name(random: &mut Random) -> Vec<u8> {
    match random.below(12) {
        0 => [random.pick(NAMES), random.pick(NAMES)].concat(),
        1..=5 => random.pick(&NAMES[..6]).to_vec(),
        _ => random.pick(NAMES).to_vec(),
    }
}

fn root(random: &mut Random) -> Value {
    match random.below(200) {
        0 => wide(random),
        1..=9 => chain(random),
        10..=19 => ladder(random),
        20..=29 => value(random, 3),
        _ => Value::Object((0..1 + random.below(6)).map(|_| (name(random), value(random, 3))).collect()),
    }
}

fn value(random: &mut Random, levels: usize) -> Value {
    match random.below(if levels == 0 { 5 } else { 10 }) {
        0 | 1 => Value::Simple(1 + random.below(3) as u8),
        2 => Value::Text(4, random.pick(&[&b"0"[..], b"-1.5e3", b"12"]).to_vec()),
        3 | 4 => Value::Text(5, name(random)),
        5 | 6 => Value::Array((0..random.below(4)).map(|_| value(random, levels - 1)).collect()),
        _ => object(random, levels - 1),
    }
}

fn object(random: &mut Random, levels: usize) -> Value {
    Value::Object((0..random.below(7)).map(|_| (name(random), value(random, levels))).collect())
}

/// Nesting about 32, the limit, in arrays and objects.
fn chain(random: &mut Random) -> Value {
    let mut inner = value(random, 0);
    for _ in 0..30 + random.below(4) {
        inner = if random.once_in(3) { Value::Array(vec![inner]) } else { Value::Object(vec![(name(random), inner)]) };
    }
    Value::Object(vec![(b"b".to_vec(), Value::Simple(1)), (b"a".to_vec(), inner)])
}

/// Objects in one another, as far as a path can go and farther.
fn ladder(random: &mut Random) -> Value {
    let mut inner = value(random, 1);
    for _ in 0..14 + random.below(5) {
        inner = Value::Object(vec![(random.pick(&NAMES[..6]).to_vec(), inner)]);
    }
    inner
}

/// Many members, so that counts and offsets need both bytes.
fn wide(random: &mut Random) -> Value {
    let count = 200 + random.below(400);
    Value::Object((0..count).map(|i| (format!("n{i}").into_bytes(), value(random, 1))).collect())
}

/// A table with its text, and where its records have what damage is done to.
#[derive(Default)]
struct Sheet {
    table: Vec<u8>,
    text: Vec<u8>,
    /// Texts that stand in the text part already are used again, so that they overlap.
    share: bool,
    kinds: Vec<usize>,
    counts: Vec<usize>,
    texts: Vec<usize>,
}

impl Sheet {
    fn write(&mut self, value: &Value) {
        match value {
            Value::Simple(kind) => self.kind(*kind),
            Value::Text(kind, text) => self.text(*kind, text),
            Value::Array(members) => {
                self.count(6, members.len());
                members.iter().for_each(|value| self.write(value));
            }
            Value::Object(members) => {
                self.count(7, members.len());
                for (key, value) in members {
                    self.text(8, key);
                    self.write(value);
                }
            }
        }
    }

    fn kind(&mut self, kind: u8) {
        self.kinds.push(self.table.len());
        self.table.push(kind);
    }

    fn pair(&mut self, number: usize) {
        self.table.extend((number as u16).to_be_bytes());
    }

    fn count(&mut self, kind: u8, count: usize) {
        self.kind(kind);
        self.counts.push(self.table.len());
        self.pair(count);
    }

    fn text(&mut self, kind: u8, text: &[u8]) {
        let end = self.text.len();
        let stands = |start: &usize| self.text[*start..].starts_with(text);
        // Only among the first texts: a long search would make the cases slow, and no better.
        let shared = if self.share { (0..end.min(100)).find(stands) } else { None };
        if shared.is_none() {
            self.text.extend_from_slice(text);
        }
        self.kind(kind);
        self.texts.push(self.table.len());
        self.pair(shared.unwrap_or(end));
        self.pair(text.len());
    }
}

fn damage(random: &mut Random, sheet: &mut Sheet) {
    let Sheet { table, text, kinds, counts, texts, .. } = sheet;
    for _ in 0..1 + random.below(2) {
        let at = random.below(table.len() + 1);
        match random.below(13) {
            0 if at < table.len() => table[at] ^= 1 << random.below(8),
            1 if at < table.len() => table[at] = random.byte(),
            2 => table.truncate(at),
            3 => table.truncate(table.len().saturating_sub(1 + random.below(6))),
            4 => table.extend((0..1 + random.below(3)).map(|_| random.below(9) as u8)),
            5 => table.insert(at, random.below(11) as u8),
            6 => set(table, random.pick(kinds), random.below(12) as u8),
            // A member more or less, and the two bytes the wrong way round.
            7 if !counts.is_empty() => {
                let low = random.pick(counts) + 1;
                let byte = table.get(low).copied().unwrap_or(0);
                set(table, low, if random.once_in(2) { byte.wrapping_add(1) } else { byte.wrapping_sub(1) });
            }
            8 if !counts.is_empty() => swap(table, random.pick(counts)),
            // A text's offset or length, by a little, by much, and the two bytes the wrong way round.
            9 if !texts.is_empty() => {
                let low = random.pick(texts) + 1 + 2 * random.below(2);
                let byte = table.get(low).copied().unwrap_or(0);
                set(table, low, byte.wrapping_add(1 + random.below(3) as u8));
            }
            10 if !texts.is_empty() => set(table, random.pick(texts) + 2 * random.below(2), random.byte()),
            11 if !texts.is_empty() => swap(table, random.pick(texts) + 2 * random.below(2)),
            _ => text.truncate(text.len().saturating_sub(1 + random.below(3))),
        }
    }
    if random.once_in(50) {
        *table = (0..random.below(40)).map(|_| random.pick(&[0, 0, 0, 1, 1, 2, 3, 4, 5, 6, 7, 7, 8, 9, 255])).collect();
    }
}

fn set(table: &mut [u8], at: usize, byte: u8) {
    if let Some(place) = table.get_mut(at) {
        *place = byte;
    }
}

fn swap(table: &mut [u8], at: usize) {
    if at + 1 < table.len() {
        table.swap(at, at + 1);
    }
}

// ---- Paths

/// What a path's reader has to tell apart, whole and cut.
#[rustfmt::skip]
const FRAGMENTS: &[&[u8]] = &[
    b"a", b"b", b"ab", b".", b".", b"..", b" ", b"  ", b"\t", b"\n", b"\r", b"\x0b", b"\x0c", b"\x1c", b"\x1f",
    b"\x00", b"\x1b", b"\"", b"\"\"", b"\"\"\"", b"\"\"\"\"", b"\"a\"", b"\"\"\"a\"\"\"", b"\"a.b\"", b"\"\\", b"\\",
    b"-", b"-1", b"--", b"-0", b"01", b"1.5", b"1.", b".5", b"1e5", b"1e+5", b"1e+", b"1E-", b"e", b"true", b"false",
    b"null", b"nul", b"include", b"/", b"//", b"#", b"$", b"${", b"{", b"}", b"[", b"]", b":", b"=", b",", b"+", b"`",
    b"^", b"?", b"!", b"@", b"*", b"&", b"'", b"|", b"\xc3\xa9", b"\xe2\x82\xac", b"\xf0\x9f\x98\x80", b"\xc2\x85",
    b"\xe2\x80\xa8", b"\xc2\xa0", b"\xe3\x80\x80", b"\xef\xbb\xbf", b"\xe2\x80\x8b", b"\x80", b"\xff", b"\xc3", b"\xe2\x82", b"\xf0\x9f\x98", b"\xc0\x80", b"\xe0\x80\x80",
    b"\xed\xa0\x80", b"\xed\x9f\xbf", b"\xf0\x80\x80\x80", b"\xf4\x90\x80\x80", b"\xf5",
];

/// The same for the inside of quotes.
#[rustfmt::skip]
const ESCAPES: &[&[u8]] = &[
    b"a", b".", b" ", b"\n", b"\x00", b"\x1f", b"\x7f", b"\xc3\xa9", b"\\", b"\\\\", b"\\n", b"\\t", b"\\\"", b"\\/",
    b"\\x", b"\\\x01", b"\\U0061", b"\\u", b"\\u0", b"\\u0061", b"\\u00e9", b"\\u00E9", b"\\u0000", b"\\u00g0",
    b"\\uffff", b"\\ud7ff", b"\\ue000", b"\\ud83d", b"\\ud83d\\ude00", b"\\uDBFF\\uDFFF", b"\\ude00",
    b"\\ud83d\\u0061", b"\\ud83d\\ud83d", b"\\ud83d\\", b"\\ud83d\\n", b"\\ud83d\\u", b"\\ud83d\\ude0",
];

fn fragments(random: &mut Random, from: &[&[u8]], most: usize) -> Vec<u8> {
    (0..random.below(most + 1)).flat_map(|_| random.pick(from).to_vec()).collect()
}

fn path(random: &mut Random, root: &Value) -> Vec<u8> {
    let mut path = match random.below(12) {
        0 => fragments(random, FRAGMENTS, 8),
        1 => [b"\"", &fragments(random, ESCAPES, 3)[..], b"\""].concat(),
        2 => many_elements(random),
        _ => {
            let names = walk(random, root);
            let elements: Vec<_> = names.iter().map(|name| element(random, name)).collect();
            elements.join(&b'.')
        }
    };
    if random.once_in(6) {
        path.splice(0..0, random.pick(&[&b" "[..], b"\t", b" \x1c", b"\n"]).to_vec());
    }
    if random.once_in(6) {
        path.extend_from_slice(random.pick(&[&b" "[..], b"\x0b", b" \x1f", b"\t", b"\n", b" ."]));
    }
    if random.once_in(6) {
        path.splice(0..0, random.pick(WIDE_SPACES).bytes());
    }
    if random.once_in(6) {
        path.extend(random.pick(WIDE_SPACES).bytes());
    }
    if random.once_in(5) {
        damage_path(random, &mut path);
    }
    if random.once_in(100) {
        lengthen(random, &mut path);
    }
    path
}

/// Names of members from the root down, not always to the end, and now and then one that is not there.
fn walk(random: &mut Random, root: &Value) -> Vec<Vec<u8>> {
    let mut names = Vec::new();
    let mut at = root;
    while let Value::Object(members) = at {
        if members.is_empty() || (!names.is_empty() && random.once_in(8)) {
            break;
        }
        let (key, value) = &members[random.below(members.len())];
        names.push(key.clone());
        at = value;
    }
    if random.once_in(12) {
        names.push(name(random));
    }
    if random.once_in(12) && !names.is_empty() {
        let i = random.below(names.len());
        names[i] = name(random);
    }
    names
}

/// About 16 elements, the limit, each short; the 17th's first byte may be of any kind.
fn many_elements(random: &mut Random) -> Vec<u8> {
    let elements: Vec<_> = (0..14 + random.below(5))
        .map(|_| match random.below(60) {
            0 => b" ".to_vec(),
            1 => Vec::new(),
            2 => b"\"\"".to_vec(),
            3 => b" \"a\" ".to_vec(),
            4 => "é".into(),
            _ => element(random, b"a"),
        })
        .collect();
    elements.join(&b'.')
}

/// One name as a path may write it: in pieces, each raw, quoted or triple-quoted. It need not come out right.
fn element(random: &mut Random, name: &[u8]) -> Vec<u8> {
    // Half of the names that can be written without quotes are.
    let plain = !name.is_empty() && name.iter().all(|byte| byte.is_ascii_alphanumeric());
    if plain && random.once_in(2) {
        return name.to_vec();
    }
    let mut written = Vec::new();
    let mut rest = name;
    loop {
        let length = if random.once_in(4) { random.below(rest.len() + 1) } else { rest.len() };
        let (part, after) = rest.split_at(length);
        match random.below(8) {
            0 => written.extend_from_slice(part),
            1 | 2 => written.extend([b"\"\"\"", part, b"\"\"\""].concat()),
            _ => quote(random, part, &mut written),
        }
        rest = after;
        if rest.is_empty() {
            return written;
        }
    }
}

/// A JSON string, each character as itself or as an escape. Bytes that are no UTF-8 stay as they are.
fn quote(random: &mut Random, part: &[u8], written: &mut Vec<u8>) {
    written.push(b'"');
    for chunk in part.utf8_chunks() {
        for c in chunk.valid().chars() {
            let short = "\"\\/\u{8}\u{c}\n\r\t".chars().position(|known| known == c);
            match short {
                Some(i) if random.once_in(2) => written.extend([b'\\', b"\"\\/bfnrt"[i]]),
                _ if c < ' ' || c == '"' || c == '\\' || random.once_in(6) => {
                    for unit in c.encode_utf16(&mut [0; 2]) {
                        let digits =
                            if random.once_in(2) { format!("\\u{unit:04x}") } else { format!("\\u{unit:04X}") };
                        written.extend(digits.bytes());
                    }
                }
                _ => written.extend(c.encode_utf8(&mut [0; 4]).bytes()),
            }
        }
        written.extend(chunk.invalid());
    }
    written.push(b'"');
}

fn damage_path(random: &mut Random, path: &mut Vec<u8>) {
    let at = random.below(path.len() + 1);
    match random.below(8) {
        0 if at < path.len() => path[at] ^= 1 << random.below(8),
        1 if at < path.len() => path[at] = random.byte(),
        2 if at < path.len() => drop(path.remove(at)),
        3 => path.truncate(at),
        4 => drop(path.splice(at..at, random.pick(WIDE_SPACES).bytes())),
        5 => drop(path.splice(at..at, random.pick(NO_SPACES).bytes())),
        _ => drop(path.splice(at..at, random.pick(FRAGMENTS).to_vec())),
    }
}

/// To about 1,024 bytes, the limit: with spaces around, which change nothing, or with a longer last element.
fn lengthen(random: &mut Random, path: &mut Vec<u8>) {
    let length = 1_022 + random.below(5);
    if random.once_in(2) {
        while path.len() < length {
            path.insert(0, b' ');
        }
    } else {
        path.resize(length, random.pick(b" a.\"\\"));
    }
}
