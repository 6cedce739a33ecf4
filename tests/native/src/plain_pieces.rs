//! Characters, whitespace, comments and simple pieces as document 01 has them, for the plain reader.

use crate::{plain_tree::Node, Refusal};
use std::borrow::Cow;

/// One simple piece as it is written.
pub enum Simple<'a> {
    Word(Node),
    Number(&'a str),
    Quoted(Cow<'a, str>),
    Unquoted(&'a str),
}
/// A place in the document.
pub struct Cursor<'a> {
    pub text: &'a str,
    pub bytes: &'a [u8],
    pub at: usize,
}

impl<'a> Cursor<'a> {
    pub fn byte(&self) -> Option<u8> {
        self.bytes.get(self.at).copied()
    }

    /// "end inside something open or a field" is 4, any other byte is 3.
    pub fn unexpected<T>(&self) -> Result<T, Refusal> {
        refuse(if self.at < self.bytes.len() { 3 } else { 4 }, self.at)
    }

    pub fn skip_spaces(&mut self) {
        while self.byte() != Some(b'\n') {
            match space(&self.bytes[self.at..]) {
                0 => return,
                length => self.at += length,
            }
        }
    }

    pub fn starts_comment(&self) -> bool {
        self.byte() == Some(b'#') || self.bytes[self.at..].starts_with(b"//")
    }

    /// Skips whitespace, newlines and comments, and tells whether there was a newline.
    pub fn skip_lines(&mut self) -> bool {
        let mut newline = false;
        loop {
            self.skip_spaces();
            if self.byte() == Some(b'\n') {
                self.at += 1;
                newline = true;
            } else if self.starts_comment() {
                let rest = &self.bytes[self.at..];
                self.at += rest.iter().position(|&byte| byte == b'\n').unwrap_or(rest.len());
            } else {
                return newline;
            }
        }
    }

    pub fn starts_simple(&self) -> bool {
        match self.byte() {
            None => false,
            Some(b'/') => self.bytes.get(self.at + 1) != Some(&b'/'),
            Some(byte) => byte == b'"' || !stops_unquoted(&self.bytes[self.at..]),
        }
    }

    pub fn simple(&mut self) -> Result<Simple<'a>, Refusal> {
        let (place, rest) = (self.at, &self.bytes[self.at..]);
        match rest[0] {
            b'"' if rest.starts_with(b"\"\"\"") => return self.triple_quoted(),
            b'"' => return self.quoted(),
            b'-' | b'0'..=b'9' => {
                let Some(length) = number(rest) else {
                    return refuse(5, place);
                };
                self.at += length;
                return Ok(Simple::Number(&self.text[place..self.at]));
            }
            _ => {}
        }
        for (word, node) in [("true", Node::True), ("false", Node::False), ("null", Node::Null)] {
            if rest.starts_with(word.as_bytes()) {
                self.at += word.len();
                return Ok(Simple::Word(node));
            }
        }
        let mut end = 0;
        while end < rest.len() && !stops_unquoted(&rest[end..]) && !rest[end..].starts_with(b"//") {
            end += 1;
        }
        self.at += end;
        Ok(Simple::Unquoted(&self.text[place..self.at]))
    }

    /// "the first later run of three or more quotes ends them, and all but its last three belong to the string"
    fn triple_quoted(&mut self) -> Result<Simple<'a>, Refusal> {
        let body = &self.text[self.at + 3..];
        let Some(run) = body.find("\"\"\"") else {
            return refuse(4, self.bytes.len());
        };
        let end = body[run..].bytes().position(|byte| byte != b'"').map_or(body.len(), |length| run + length);
        self.at += 3 + end;
        Ok(Simple::Quoted(Cow::Borrowed(&body[..end - 3])))
    }

    /// A JSON string.
    fn quoted(&mut self) -> Result<Simple<'a>, Refusal> {
        self.at += 1;
        let mut text = Cow::Borrowed("");
        loop {
            let start = self.at;
            while self.byte().is_some_and(|byte| byte > 0x1f && byte != b'"' && byte != b'\\') {
                self.at += 1;
            }
            // Only a string with escapes is put together anew.
            if start < self.at {
                text += &self.text[start..self.at];
            }
            match self.next()? {
                b'"' => return Ok(Simple::Quoted(text)),
                b'\\' => text.to_mut().push(self.escape()?),
                _ => return refuse(5, self.at - 1),
            }
        }
    }

    /// The next byte; the end is inside something open wherever this is asked.
    fn next(&mut self) -> Result<u8, Refusal> {
        match self.byte() {
            Some(byte) => {
                self.at += 1;
                Ok(byte)
            }
            None => refuse(4, self.at),
        }
    }

    /// The character of the escape whose `\` was just read.
    fn escape(&mut self) -> Result<char, Refusal> {
        let place = self.at - 1;
        Ok(match self.next()? {
            byte @ (b'"' | b'\\' | b'/') => char::from(byte),
            b'b' => '\x08',
            b'f' => '\x0c',
            b'n' => '\n',
            b'r' => '\r',
            b't' => '\t',
            b'u' => {
                let first = self.hex(place)?;
                let mut units = vec![first];
                if (0xd800..0xdc00).contains(&first) {
                    if self.next()? != b'\\' || self.next()? != b'u' {
                        return refuse(5, place);
                    }
                    units.push(self.hex(place)?);
                }
                match char::decode_utf16(units).next() {
                    Some(Ok(character)) => character,
                    _ => return refuse(5, place),
                }
            }
            _ => return refuse(5, place),
        })
    }

    fn hex(&mut self, place: usize) -> Result<u16, Refusal> {
        let mut unit = 0;
        for _ in 0..4 {
            let digit = char::from(self.next()?).to_digit(16).ok_or(Refusal { number: 5, place })?;
            unit = unit << 4 | digit as u16;
        }
        Ok(unit)
    }
}

pub fn refuse<T>(number: u8, place: usize) -> Result<T, Refusal> {
    Err(Refusal { number, place })
}

/// The length of the whitespace character that `rest` starts with, 0 if it starts with none. "Whitespace is bytes 09 to 0D,
/// 1C to 1F, 20", and by document 02, No. 2, "every Unicode 15 character of categories Zs, Zl and Zp, and U+FEFF".
fn space(rest: &[u8]) -> usize {
    match rest {
        [0x09..=0x0d | 0x1c..=0x20, ..] => 1,
        [0xc2, 0xa0, ..] => 2,
        [0xe1, 0x9a, 0x80, ..]
        | [0xe2, 0x80, 0x80..=0x8a | 0xa8 | 0xa9 | 0xaf, ..]
        | [0xe2, 0x81, 0x9f, ..]
        | [0xe3, 0x80, 0x80, ..]
        | [0xef, 0xbb, 0xbf, ..] => 3,
        _ => 0,
    }
}

/// Whether unquoted text ends before `rest`, which is not empty.
fn stops_unquoted(rest: &[u8]) -> bool {
    STOPS[usize::from(rest[0])] || rest[0] >= 0x80 && space(rest) > 0
}

/// Which bytes below 80 end unquoted text.
const STOPS: [bool; 256] = {
    let listed = b"\x09\x0a\x0b\x0c\x0d\x1c\x1d\x1e\x1f $\"{}[]:=,+#`^?!@*&\\";
    let mut stops = [false; 256];
    let mut i = 0;
    while i < listed.len() {
        stops[listed[i] as usize] = true;
        i += 1;
    }
    stops
};

/// The length of the longest JSON number at the start, which is a digit or `-`.
fn number(rest: &[u8]) -> Option<usize> {
    let digits = |from: usize| rest[from..].iter().take_while(|byte| byte.is_ascii_digit()).count();
    let sign = usize::from(rest[0] == b'-');
    let mut end = match rest.get(sign)? {
        b'0' => sign + 1,
        b'1'..=b'9' => sign + digits(sign),
        _ => return None,
    };
    if rest.get(end) == Some(&b'.') && digits(end + 1) > 0 {
        end += 1 + digits(end + 1);
    }
    if let Some(b'e' | b'E') = rest.get(end) {
        let sign = usize::from(matches!(rest.get(end + 1), Some(b'+' | b'-')));
        if digits(end + 1 + sign) > 0 {
            end += 1 + sign + digits(end + 1 + sign);
        }
    }
    Some(end)
}
