//! A plain reader of documents: the chapter "Reading" of document 01 in everyday Rust, for the plain resolver. It shares
//! nothing with the library.

use crate::plain_pieces::{refuse, Cursor, Simple};
use crate::plain_tree::{Document, Field, Key, Literal, Node, Part, Piece, Unresolved};
use crate::Refusal;
use std::{collections::HashMap, rc::Rc};

const MAX_NESTING: usize = 32;
const MAX_ITEMS: usize = 2_048;
const MAX_UNRESOLVED: usize = 256;
const MAX_ELEMENTS: usize = 16;

/// Reads a document: 2 over the whole of it, then 3 to 8 and 11 from left to right.
pub fn read(document: &[u8]) -> Result<Document, Refusal> {
    let text = match std::str::from_utf8(document) {
        Ok(text) => text,
        Err(error) => return refuse(2, error.valid_up_to()),
    };
    let mut reader = Reader {
        cursor: Cursor { text, bytes: document, at: 0 },
        items: 0,
        keys: HashMap::new(),
        document: Document { root: Node::Null, objects: Vec::new(), unresolved: Vec::new(), names: Vec::new() },
        places: Vec::new(),
    };
    reader.document.root = reader.root()?;
    reader.finish()
}

/// An element of a key or path.
struct Element {
    place: usize,
    name: String,
    /// A quoted piece belongs to it, so that it may be empty.
    quoted: bool,
}

struct Reader<'a> {
    cursor: Cursor<'a>,
    items: usize,
    keys: HashMap<Rc<str>, Key>,
    document: Document,
    /// The unresolved values in the order in which they end: each one's first byte and its index in the document's list.
    places: Vec<(usize, usize)>,
}

impl Reader<'_> {
    fn count(&mut self) -> Result<(), Refusal> {
        if self.items == MAX_ITEMS {
            return refuse(8, self.cursor.at);
        }
        self.items += 1;
        Ok(())
    }

    // ---- Objects and arrays

    fn root(&mut self) -> Result<Node, Refusal> {
        self.cursor.skip_lines();
        let root = match self.cursor.byte() {
            Some(b'{') => self.object(0)?,
            Some(b'[') => self.array(0)?,
            _ => {
                let fields = self.fields(1, None)?;
                self.literal(fields)
            }
        };
        self.cursor.skip_lines();
        if self.cursor.at < self.cursor.bytes.len() {
            return refuse(3, self.cursor.at);
        }
        Ok(root)
    }

    fn literal(&mut self, fields: Vec<Field>) -> Node {
        self.document.objects.push(Literal::new(fields));
        Node::Object(self.document.objects.len() - 1)
    }

    /// The object that opens here, `outer` brackets and key elements deep.
    fn object(&mut self, outer: usize) -> Result<Node, Refusal> {
        if outer == MAX_NESTING {
            return refuse(8, self.cursor.at);
        }
        self.cursor.at += 1;
        let fields = self.fields(outer + 1, Some(b'}'))?;
        Ok(self.literal(fields))
    }

    fn array(&mut self, outer: usize) -> Result<Node, Refusal> {
        if outer == MAX_NESTING {
            return refuse(8, self.cursor.at);
        }
        self.cursor.at += 1;
        let mut elements = Vec::new();
        self.list(Some(b']'), |reader| {
            if reader.starts_piece() {
                reader.count()?;
            }
            elements.push(reader.value(outer + 1)?);
            Ok(())
        })?;
        Ok(Node::Array(elements))
    }

    fn fields(&mut self, depth: usize, close: Option<u8>) -> Result<Vec<Field>, Refusal> {
        let mut fields = Vec::new();
        self.list(close, |reader| {
            fields.push(reader.field(depth)?);
            Ok(())
        })?;
        Ok(fields)
    }

    /// Members up to the closing byte, or the end where there is none: "parted by one comma, or by at least one newline;
    /// one trailing comma is allowed".
    fn list(
        &mut self,
        close: Option<u8>,
        mut member: impl FnMut(&mut Self) -> Result<(), Refusal>,
    ) -> Result<(), Refusal> {
        self.cursor.skip_lines();
        loop {
            if self.cursor.byte() == close {
                self.cursor.at += usize::from(close.is_some());
                return Ok(());
            }
            if self.cursor.byte().is_none() {
                return refuse(4, self.cursor.at);
            }
            member(self)?;
            let newline = self.cursor.skip_lines();
            if self.cursor.byte() == Some(b',') {
                self.cursor.at += 1;
                self.cursor.skip_lines();
            } else if !newline && self.cursor.byte() != close {
                return self.cursor.unexpected();
            }
        }
    }

    // ---- Keys and paths

    fn field(&mut self, depth: usize) -> Result<Field, Refusal> {
        let start = self.cursor.at;
        let elements = self.key()?;
        if elements.iter().any(Element::is_bad) {
            return refuse(7, start);
        }
        // "of several 8 judged together the first place counts"; "Each key element after the first opens one nesting".
        let fitting = MAX_ELEMENTS.min(MAX_ITEMS - self.items).min(MAX_NESTING + 1 - depth);
        if let Some(excess) = elements.get(fitting) {
            return refuse(8, excess.place);
        }
        self.items += elements.len();
        self.cursor.skip_lines();
        match self.cursor.byte() {
            Some(b':' | b'=') => {
                self.cursor.at += 1;
                self.cursor.skip_lines();
            }
            Some(b'{') => {}
            _ => return self.cursor.unexpected(),
        }
        let mut value = self.value(depth + elements.len() - 1)?;
        for element in elements[1..].iter().rev() {
            let key = self.key_of(&element.name);
            value = self.literal(vec![Field { key, value }]);
        }
        Ok(Field { key: self.key_of(&elements[0].name), value })
    }

    fn key_of(&mut self, name: &str) -> Key {
        if let Some(key) = self.keys.get(name) {
            return *key;
        }
        let name: Rc<str> = name.into();
        let key = Key { number: self.document.names.len() as u32, length: name.len() as u32 };
        self.document.names.push(name.clone());
        self.keys.insert(name, key);
        key
    }

    /// A key with the spaces behind it. "6 and a key's `$` are given at once"
    fn key(&mut self) -> Result<Vec<Element>, Refusal> {
        let place = self.cursor.at;
        if self.cursor.byte() == Some(b'$') {
            return refuse(7, place);
        }
        if !self.cursor.starts_simple() {
            return refuse(3, place);
        }
        let elements = self.elements(true)?;
        if self.cursor.byte() == Some(b'$') {
            return refuse(7, self.cursor.at);
        }
        Ok(elements)
    }

    /// "simple pieces joined as text, then split at each dot not inside quotes", and the spaces behind them.
    fn elements(&mut self, key: bool) -> Result<Vec<Element>, Refusal> {
        let mut elements = vec![Element { place: self.cursor.at, name: String::new(), quoted: false }];
        let mut first = key;
        while self.cursor.starts_simple() {
            let place = self.cursor.at;
            let piece = self.cursor.simple()?;
            if let (true, Simple::Unquoted(text)) = (first, &piece) {
                if *text == "include" || text.starts_with("include.") {
                    return refuse(6, place);
                }
            }
            first = false;
            if let Simple::Quoted(text) = piece {
                let element = elements.last_mut().expect("one was there from the start");
                element.name.push_str(&text);
                element.quoted = true;
            } else {
                join_path(&mut elements, place, &self.cursor.text[place..self.cursor.at]);
            }
            let gap = self.cursor.at;
            self.cursor.skip_spaces();
            if self.cursor.starts_simple() {
                join_path(&mut elements, gap, &self.cursor.text[gap..self.cursor.at]);
            }
        }
        Ok(elements)
    }

    /// The substitution that starts here.
    fn substitution(&mut self) -> Result<Part, Refusal> {
        let dollar = self.cursor.at;
        self.cursor.at += 2;
        let required = self.cursor.byte() != Some(b'?');
        self.cursor.at += usize::from(!required);
        self.cursor.skip_spaces();
        let elements = self.elements(false)?;
        if self.cursor.byte() != Some(b'}') {
            return self.cursor.unexpected();
        }
        self.cursor.at += 1;
        if elements.iter().any(Element::is_bad) {
            return refuse(7, dollar);
        }
        if let Some(excess) = elements.get(MAX_ELEMENTS) {
            return refuse(8, excess.place);
        }
        let path = elements.iter().map(|element| self.key_of(&element.name)).collect();
        Ok(Part::Substitution { path, required })
    }

    // ---- Values

    fn starts_piece(&self) -> bool {
        match self.cursor.byte() {
            Some(b'{' | b'[') => true,
            Some(b'$') => self.cursor.bytes.get(self.cursor.at + 1) == Some(&b'{'),
            _ => self.cursor.starts_simple(),
        }
    }

    /// The value that has to start here.
    fn value(&mut self, depth: usize) -> Result<Node, Refusal> {
        if !self.starts_piece() {
            return self.cursor.unexpected();
        }
        let mut pieces = vec![self.piece(self.cursor.at, depth)?];
        loop {
            let gap = self.cursor.at;
            self.cursor.skip_spaces();
            if !self.starts_piece() {
                break;
            }
            pieces.push(self.piece(gap, depth)?);
        }
        if pieces.iter().any(|piece| matches!(piece.part, Part::Substitution { .. })) {
            let index = self.document.unresolved.len();
            self.places.push((pieces[0].place, index));
            self.document.unresolved.push(Unresolved { pieces, home: None });
            return Ok(Node::Unresolved(index));
        }
        self.joined(pieces)
    }

    /// The piece that starts here, after whitespace from `gap` on. "A piece is counted before it is read"
    fn piece(&mut self, gap: usize, depth: usize) -> Result<Piece, Refusal> {
        self.count()?;
        let place = self.cursor.at;
        let gap = self.cursor.text[gap..place].into();
        let part = match self.cursor.bytes[place] {
            b'{' => Part::Literal(self.object(depth)?),
            b'[' => Part::Literal(self.array(depth)?),
            b'$' => self.substitution()?,
            _ => Part::Literal(match self.cursor.simple()? {
                Simple::Word(node) => node,
                Simple::Number(text) => Node::Number(text.into()),
                Simple::Quoted(text) => Node::String(text.into()),
                Simple::Unquoted(text) => Node::String(text.into()),
            }),
        };
        Ok(Piece { place, gap, part })
    }

    /// "a value of several simple pieces is a string, of arrays their join, of objects one literal with all their fields in
    /// turn"; 11 at the "first piece unlike the first".
    fn joined(&mut self, pieces: Vec<Piece>) -> Result<Node, Refusal> {
        let mut parts = pieces.into_iter().map(|piece| match piece.part {
            Part::Literal(node) => (piece.place, piece.gap, node),
            Part::Substitution { .. } => unreachable!("there is no substitution among these pieces"),
        });
        let (_, _, first) = parts.next().expect("a value has a piece");
        let rest: Vec<_> = parts.collect();
        if let Some((place, ..)) = rest.iter().find(|(.., node)| node.kind() != first.kind()) {
            return refuse(11, *place);
        }
        if rest.is_empty() {
            return Ok(first);
        }
        Ok(match first {
            Node::Array(mut elements) => {
                for (.., node) in rest {
                    if let Node::Array(further) = node {
                        elements.extend(further);
                    }
                }
                Node::Array(elements)
            }
            Node::Object(object) => {
                for (.., node) in rest {
                    if let Node::Object(further) = node {
                        let fields = std::mem::take(&mut self.document.objects[further].fields);
                        self.document.objects[object].fields.extend(fields);
                    }
                }
                Node::Object(object)
            }
            simple => {
                let mut text = String::from(simple.text());
                for (_, gap, node) in &rest {
                    text.push_str(gap);
                    text.push_str(node.text());
                }
                Node::String(text.into())
            }
        })
    }
    // ---- When all is read

    /// Numbers the unresolved values, tests their limit, sorts the fields and finds the open objects.
    fn finish(mut self) -> Result<Document, Refusal> {
        self.places.sort();
        if let Some((place, _)) = self.places.get(MAX_UNRESOLVED) {
            return refuse(8, *place);
        }
        let mut numbers = vec![0; self.places.len()];
        for (number, (_, index)) in self.places.iter().enumerate() {
            numbers[*index] = number;
        }
        let mut document = self.document;
        document.number(&numbers);
        document.objects.iter_mut().for_each(Literal::sort);
        if let Node::Object(root) = document.root {
            document.open(root);
        }
        Ok(document)
    }
}
impl Element {
    /// "an empty path or empty unquoted path element"
    fn is_bad(&self) -> bool {
        self.name.is_empty() && !self.quoted
    }
}

/// Joins text from outside quotes, which begins at `place`.
fn join_path(elements: &mut Vec<Element>, place: usize, text: &str) {
    for (i, part) in text.split('.').enumerate() {
        if i > 0 {
            let place = place + (part.as_ptr() as usize - text.as_ptr() as usize);
            elements.push(Element { place, name: String::new(), quoted: false });
        }
        elements.last_mut().expect("one was there from the start").name.push_str(part);
    }
}
