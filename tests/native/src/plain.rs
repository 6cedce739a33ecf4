//! A plain look-up and plain readers of lengths and profiles: documents 01 and 02 put into everyday Rust, to hold the library
//! against. They share nothing with the library, neither code nor definitions, so that a mistake in one is no mistake in
//! the other.

use crate::{Answer, Length, Limits, Profile, Refusal};

/// "a part of a sheet, lent to check or look-up, is over 32,768 bytes"
const MAX_PART: usize = 32_768;
const MAX_PATH_TEXT: usize = 1_024;
const MAX_NESTING: usize = 32;
const MAX_ELEMENTS: usize = 16;

/// The value that `path` names in `table`.
/// "Look up: 1, 15, then 2 to 8 on the path text (6 is not given there), then 16."
pub fn look_up(table: &[u8], text: &[u8], path: &[u8]) -> Answer {
    if table.len() > MAX_PART || text.len() > MAX_PART || path.len() > MAX_PATH_TEXT {
        return refuse(1, 0);
    }
    let records = Records { table, text };
    if records.end(0, MAX_NESTING) != Some(table.len()) {
        return refuse(15, 0);
    }
    let names = read_path(path)?;
    let start = names.iter().try_fold(0, |at, name| records.member(at, name.as_bytes()));
    match start.and_then(|start| Some(start..records.end(start, MAX_NESTING)?)) {
        Some(found) => Ok(found),
        None => refuse(16, 0),
    }
}

/// The length that the value `table` writes; document 02, No. 3: "Refused, in this order: malformed (exponents and all
/// else), a bare number (kind 4 or 5), a minus sign, not whole micrometres (`0.0001 mm`), over 1,000,000", after 1 and 15.
pub fn length(table: &[u8], text: &[u8]) -> Length {
    if table.len() > MAX_PART || text.len() > MAX_PART {
        return Err(1);
    }
    let records = Records { table, text };
    if records.end(0, MAX_NESTING) != Some(table.len()) {
        return Err(15);
    }
    let written = match table[0] {
        4 | 5 => records.text(0).ok_or(15)?,
        _ => return Err(20),
    };
    let (minus, rest) = written.strip_prefix(b"-").map_or((false, written), |rest| (true, rest));
    let (whole, rest) = digits(rest);
    if whole.is_empty() || whole.len() > 1 && whole[0] == b'0' {
        return Err(20);
    }
    let (fraction, rest) = match rest.strip_prefix(b".") {
        Some(rest) if digits(rest).0.is_empty() => return Err(20),
        Some(rest) => digits(rest),
        None => (&[][..], rest),
    };
    if rest.is_empty() {
        return Err(21);
    }
    let Ok(rest) = std::str::from_utf8(rest) else {
        return Err(20);
    };
    let unit = match rest.trim_start_matches(is_whitespace) {
        "um" => 1,
        "mm" => 1_000,
        "in" => 25_400,
        _ => return Err(20),
    };
    if table[0] == 4 {
        return Err(20);
    }
    if minus {
        return Err(22);
    }
    micrometres(whole, fraction, unit)
}

/// The profile of `table`; document 02, No. 11: "New refusals of both editions: `profile` missing or other, `unit`, `plate.min`,
/// `plate.max`, min above max", after 1 and 15.
pub fn profile(table: &[u8], text: &[u8]) -> Profile {
    if table.len() > MAX_PART || text.len() > MAX_PART {
        return Err(1);
    }
    let records = Records { table, text };
    if records.end(0, MAX_NESTING) != Some(table.len()) {
        return Err(15);
    }
    let value = |path: &[&str]| path.iter().try_fold(0, |at, name| records.member(at, name.as_bytes()));
    let written = |kind, path: &[&str]| value(path).filter(|at| table[*at] == kind).and_then(|at| records.text(at));
    // What one is that is counted: hundredths of a millimetre, thousandths of an inch, micrometres.
    let (edition, step) = match written(4, &["profile"]) {
        Some(b"1") => match written(5, &["unit"]) {
            Some(b"mm") => (1, 100),
            Some(b"in") => (1, 254),
            _ => return Err(40),
        },
        Some(b"2") if value(&["unit"]).is_some() => return Err(40),
        Some(b"2") => (2, 10),
        _ => return Err(39),
    };
    let count = |name| match edition {
        1 => bare(written(4, &["plate", name])?),
        // What No. 3 says of the value by itself.
        _ => {
            let at = value(&["plate", name])?;
            length(&table[at..records.end(at, MAX_NESTING)?], text).ok()
        }
    };
    let minimum = count("min").ok_or(41)? * step;
    let maximum = count("max").ok_or(42)? * step;
    if minimum > maximum {
        return Err(43);
    }
    Ok(Limits { edition, minimum, maximum })
}

/// A JSON number "in digits only from 0 to 100,000".
fn bare(written: &[u8]) -> Option<u32> {
    let (number, rest) = digits(written);
    if number.is_empty() || !rest.is_empty() || number.len() > 1 && number[0] == b'0' {
        return None;
    }
    std::str::from_utf8(number).ok()?.parse().ok().filter(|count| *count <= 100_000)
}

/// The digits that some bytes start with, and the rest.
fn digits(bytes: &[u8]) -> (&[u8], &[u8]) {
    bytes.split_at(bytes.iter().take_while(|byte| byte.is_ascii_digit()).count())
}

/// The digits times the unit by long multiplication, and then without as many of the last digits as stand behind the dot.
fn micrometres(whole: &[u8], fraction: &[u8], unit: u64) -> Length {
    let mut product = Vec::new(); // the last digit first
    let mut carry = 0;
    for digit in whole.iter().chain(fraction).rev() {
        carry += u64::from(digit - b'0') * unit;
        product.push(carry % 10);
        carry /= 10;
    }
    while carry > 0 {
        product.push(carry % 10);
        carry /= 10;
    }
    let (left_over, quotient) = product.split_at(fraction.len());
    if left_over.iter().any(|digit| *digit != 0) {
        return Err(23);
    }
    let size = quotient.iter().rposition(|digit| *digit != 0).map_or(0, |last| last + 1);
    if size > 7 {
        return Err(24);
    }
    match quotient[..size].iter().rev().fold(0, |sum, digit| sum * 10 + digit) {
        sum @ 0..=1_000_000 => Ok(sum as u32),
        _ => Err(24),
    }
}

fn refuse<T>(number: u8, place: usize) -> Result<T, Refusal> {
    Err(Refusal { number, place })
}

/// A lent table with its text. `None` stands for records that are not whole.
struct Records<'a> {
    table: &'a [u8],
    text: &'a [u8],
}

impl<'a> Records<'a> {
    /// Two bytes, "high byte first".
    fn pair(&self, at: usize) -> Option<usize> {
        let bytes = self.table.get(at..at + 2)?;
        Some(usize::from(bytes[0]) << 8 | usize::from(bytes[1]))
    }

    /// The text of the number, string or key record at `at`, if it lies "inside the lent text part".
    fn text(&self, at: usize) -> Option<&'a [u8]> {
        let offset = self.pair(at + 1)?;
        let length = self.pair(at + 3)?;
        self.text.get(offset..offset + length)
    }

    /// The text of the key record at `at`.
    fn key(&self, at: usize) -> Option<&'a [u8]> {
        if self.table.get(at) == Some(&8) {
            self.text(at)
        } else {
            None
        }
    }

    /// The end of the value at `at`, in which at most `levels` arrays and objects may be nested.
    fn end(&self, at: usize, levels: usize) -> Option<usize> {
        match self.table.get(at)? {
            1..=3 => Some(at + 1),
            4 | 5 => self.text(at).map(|_| at + 5),
            kind @ (6 | 7) => {
                let levels = levels.checked_sub(1)?;
                let count = self.pair(at + 1)?;
                (0..count).try_fold(at + 3, |at, _| match kind {
                    6 => self.end(at, levels),
                    _ => self.key(at).and_then(|_| self.end(at + 5, levels)),
                })
            }
            _ => None,
        }
    }

    /// The member `name` of the object at `at`; "equal keys answers by the first".
    fn member(&self, at: usize, name: &[u8]) -> Option<usize> {
        if self.table.get(at) != Some(&7) {
            return None;
        }
        let mut key = at + 3;
        for _ in 0..self.pair(at + 1)? {
            let value = key + 5;
            if self.key(key)? == name {
                return Some(value);
            }
            key = self.end(value, MAX_NESTING)?;
        }
        None
    }
}

/// The names of a path text: simple pieces joined as text, "then split at each dot not inside quotes".
fn read_path(path: &[u8]) -> Result<Vec<String>, Refusal> {
    let text = match std::str::from_utf8(path) {
        Ok(text) => text,
        Err(error) => return refuse(2, error.valid_up_to()),
    };
    let mut reader = PathReader { text, at: 0, elements: Vec::new() };
    reader.skip_spaces();
    reader.begin_element(reader.at);
    while reader.at < text.len() {
        reader.piece()?;
        let gap = reader.at;
        reader.skip_spaces();
        // Spaces between pieces are kept; those at the end are outer ones.
        if reader.at < text.len() {
            reader.join(gap, &text[gap..reader.at]);
        }
    }

    // "a key or path is judged at its end [..], 7 before 8". An empty path is one empty element here.
    let elements = reader.elements;
    if elements.iter().any(|element| element.name.is_empty() && !element.quoted) {
        return refuse(7, 0);
    }
    if let Some(excess) = elements.get(MAX_ELEMENTS) {
        return refuse(8, excess.place);
    }
    Ok(elements.into_iter().map(|element| element.name).collect())
}

struct Element {
    /// Its first byte in the path text.
    place: usize,
    name: String,
    /// A quoted piece belongs to it, so that it may be empty.
    quoted: bool,
}

struct PathReader<'a> {
    text: &'a str,
    at: usize,
    elements: Vec<Element>,
}

impl<'a> PathReader<'a> {
    fn rest(&self) -> &'a str {
        &self.text[self.at..]
    }

    /// The next character; the end is inside something open wherever this is asked.
    fn next(&mut self) -> Result<char, Refusal> {
        match self.rest().chars().next() {
            Some(c) => {
                self.at += c.len_utf8();
                Ok(c)
            }
            None => refuse(4, self.text.len()),
        }
    }

    fn skip_spaces(&mut self) {
        let rest = self.rest();
        let after = rest.trim_start_matches(|c| is_whitespace(c) && c != '\n');
        self.at += rest.len() - after.len();
    }

    fn begin_element(&mut self, place: usize) {
        self.elements.push(Element { place, name: String::new(), quoted: false });
    }

    fn element(&mut self) -> &mut Element {
        self.elements.last_mut().expect("the first element is begun before any piece")
    }

    /// Joins text from outside quotes, which begins at `place`.
    fn join(&mut self, place: usize, text: &str) {
        for (i, c) in text.char_indices() {
            match c {
                '.' => self.begin_element(place + i + 1),
                _ => self.element().name.push(c),
            }
        }
    }

    fn join_quoted(&mut self, text: &str) {
        let element = self.element();
        element.name.push_str(text);
        element.quoted = true;
    }

    /// One simple piece.
    fn piece(&mut self) -> Result<(), Refusal> {
        let (place, rest) = (self.at, self.rest());
        if rest.starts_with("\"\"\"") {
            let text = self.triple_quoted()?;
            self.join_quoted(text);
        } else if rest.starts_with('"') {
            let text = self.quoted()?;
            self.join_quoted(&text);
        } else {
            let length = match rest.as_bytes()[0] {
                b'-' | b'0'..=b'9' => number(rest).ok_or(Refusal { number: 5, place })?,
                _ => match ["true", "false", "null"].iter().find(|word| rest.starts_with(**word)) {
                    Some(word) => word.len(),
                    None => unquoted(rest),
                },
            };
            if length == 0 {
                return refuse(3, place);
            }
            self.at += length;
            self.join(place, &rest[..length]);
        }
        Ok(())
    }

    /// "Triple quotes take everything raw; the first later run of three or more quotes ends them, and all but its last
    /// three belong to the string."
    fn triple_quoted(&mut self) -> Result<&'a str, Refusal> {
        let body = &self.rest()[3..];
        let Some(run) = body.find("\"\"\"") else {
            return refuse(4, self.text.len());
        };
        let end = body[run..].find(|c| c != '"').map_or(body.len(), |length| run + length);
        self.at += 3 + end;
        Ok(&body[..end - 3])
    }

    /// A JSON string.
    fn quoted(&mut self) -> Result<String, Refusal> {
        let mut text = String::new();
        self.next()?;
        loop {
            let place = self.at;
            match self.next()? {
                '"' => return Ok(text),
                '\\' => text.push(self.escape(place)?),
                '\0'..='\x1f' => return refuse(5, place),
                c => text.push(c),
            }
        }
    }

    /// The character of the escape whose `\` was at `place`.
    fn escape(&mut self, place: usize) -> Result<char, Refusal> {
        Ok(match self.next()? {
            c @ ('"' | '\\' | '/') => c,
            'b' => '\x08',
            'f' => '\x0c',
            'n' => '\n',
            'r' => '\r',
            't' => '\t',
            'u' => {
                let mut units = vec![self.hex(place)?];
                if (0xd800..0xdc00).contains(&units[0]) {
                    // The mate has to stand next, and is part of this escape.
                    for expected in ['\\', 'u'] {
                        if self.next()? != expected {
                            return refuse(5, place);
                        }
                    }
                    units.push(self.hex(place)?);
                }
                match char::decode_utf16(units).next() {
                    Some(Ok(c)) => c,
                    _ => return refuse(5, place),
                }
            }
            _ => return refuse(5, place),
        })
    }

    /// Four hex digits.
    fn hex(&mut self, place: usize) -> Result<u16, Refusal> {
        let mut unit = 0;
        for _ in 0..4 {
            let digit = self.next()?.to_digit(16).ok_or(Refusal { number: 5, place })?;
            unit = unit << 4 | digit as u16;
        }
        Ok(unit)
    }
}

/// "Whitespace is bytes 09 to 0D, 1C to 1F, 20", and by document 02, No. 2, "every Unicode 15 character of categories Zs, Zl
/// and Zp, and U+FEFF".
fn is_whitespace(c: char) -> bool {
    let zs = matches!(c, '\u{a0}' | '\u{1680}' | '\u{2000}'..='\u{200a}' | '\u{202f}' | '\u{205f}' | '\u{3000}');
    matches!(c, '\x09'..='\x0d' | '\x1c'..='\x20') || zs || matches!(c, '\u{2028}' | '\u{2029}' | '\u{feff}')
}

/// The length of unquoted text: "up to whitespace, `//`, or one of [..]".
fn unquoted(rest: &str) -> usize {
    let special = |c| is_whitespace(c) || "$\"{}[]:=,+#`^?!@*&\\".contains(c);
    let end = rest.find(special).unwrap_or(rest.len());
    rest[..end].find("//").unwrap_or(end)
}

/// The length of the longest JSON number that `rest` starts with.
fn number(rest: &str) -> Option<usize> {
    let bytes = rest.as_bytes();
    let digits = |from: usize| bytes[from..].iter().take_while(|byte| byte.is_ascii_digit()).count();

    let sign = usize::from(bytes[0] == b'-');
    let integer = match bytes.get(sign)? {
        b'0' => 1,
        b'1'..=b'9' => digits(sign),
        _ => return None,
    };
    let mut end = sign + integer;
    if bytes.get(end) == Some(&b'.') && digits(end + 1) > 0 {
        end += 1 + digits(end + 1);
    }
    if let Some(b'e' | b'E') = bytes.get(end) {
        let sign = usize::from(matches!(bytes.get(end + 1), Some(b'+' | b'-')));
        if digits(end + 1 + sign) > 0 {
            end += 1 + sign + digits(end + 1 + sign);
        }
    }
    Some(end)
}
