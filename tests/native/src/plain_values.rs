//! Finished values of the plain resolver: their sizes, how they join, and their records.

use crate::plain_tree::Key;
use std::{cell::OnceCell, collections::HashMap, rc::Rc};

/// "nested at most 32, 16,384 bytes of records, 16,384 of text"
const MAX_NESTING: usize = 32;
const MAX_BYTES: usize = 16_384;

/// An object with fewer members is searched from its first.
const INDEXED: usize = 8;

/// A finished value; what is large is shared.
#[derive(Clone)]
pub enum Value {
    Null,
    False,
    True,
    Number(Rc<str>),
    String(Rc<str>),
    Array(Rc<Array>),
    Object(Rc<Object>),
}

#[derive(Clone, Copy, Default)]
pub struct Size {
    pub records: usize,
    pub text: usize,
    pub nesting: usize,
}

#[derive(Clone)]
pub struct Array {
    elements: Vec<Value>,
    size: Size,
}

#[derive(Clone)]
pub struct Object {
    members: Vec<(Key, Value)>,
    size: Size,
    /// Where each key stands by its number, once that was asked.
    index: OnceCell<HashMap<u32, usize>>,
}

#[derive(Clone, Copy, PartialEq, Eq)]
pub enum Kind {
    Simple,
    Array,
    Object,
}

impl Size {
    pub fn fits(self) -> bool {
        self.records <= MAX_BYTES && self.text <= MAX_BYTES && self.nesting <= MAX_NESTING
    }

    /// An array or object without members.
    fn container() -> Size {
        Size { records: 3, text: 0, nesting: 1 }
    }

    /// The records and texts of a member more; the nesting it brings.
    fn add(&mut self, member: Size) {
        self.records += member.records;
        self.text += member.text;
        self.nesting = self.nesting.max(member.nesting + 1);
    }
}

impl Value {
    pub fn kind(&self) -> Kind {
        match self {
            Value::Array(_) => Kind::Array,
            Value::Object(_) => Kind::Object,
            _ => Kind::Simple,
        }
    }

    pub fn size(&self) -> Size {
        match self {
            Value::Null | Value::False | Value::True => Size { records: 1, text: 0, nesting: 0 },
            Value::Number(text) | Value::String(text) => Size { records: 5, text: text.len(), nesting: 0 },
            Value::Array(array) => array.size,
            Value::Object(object) => object.size,
        }
    }

    /// The text of a simple value, "numbers as written".
    pub fn text(&self) -> &str {
        match self {
            Value::Null => "null",
            Value::False => "false",
            Value::True => "true",
            Value::Number(text) | Value::String(text) => text,
            Value::Array(_) | Value::Object(_) => unreachable!("only simple values have a text"),
        }
    }
}

impl Default for Array {
    fn default() -> Array {
        Array { elements: Vec::new(), size: Size::container() }
    }
}

impl Array {
    pub fn push(&mut self, element: Value) {
        self.size.add(element.size());
        self.elements.push(element);
    }

    pub fn join(&mut self, further: &Array) {
        further.elements.iter().for_each(|element| self.push(element.clone()));
    }
}

impl Default for Object {
    fn default() -> Object {
        Object { members: Vec::new(), size: Size::container(), index: OnceCell::new() }
    }
}

impl Object {
    pub fn members(&self) -> &[(Key, Value)] {
        &self.members
    }

    fn position(&self, key: Key) -> Option<usize> {
        if self.members.len() < INDEXED {
            return self.members.iter().position(|(other, _)| *other == key);
        }
        let index =
            self.index.get_or_init(|| self.members.iter().enumerate().map(|(i, (key, _))| (key.number, i)).collect());
        index.get(&key.number).copied()
    }

    pub fn get(&self, key: Key) -> Option<&Value> {
        self.position(key).map(|i| &self.members[i].1)
    }

    /// A member whose key is not there yet.
    pub fn push(&mut self, key: Key, value: Value) {
        let Size { records, text, nesting } = value.size();
        self.size.add(Size { records: 5 + records, text: key.length as usize + text, nesting });
        if let Some(index) = self.index.get_mut() {
            index.insert(key.number, self.members.len());
        }
        self.members.push((key, value));
    }

    /// Lays `upper` over this object.
    pub fn merge(&mut self, upper: &Object) {
        for (key, value) in &upper.members {
            let Some(i) = self.position(*key) else {
                self.push(*key, value.clone());
                continue;
            };
            let member = &mut self.members[i].1;
            let before = member.size();
            match (&mut *member, value) {
                (Value::Object(lower), Value::Object(upper)) => Rc::make_mut(lower).merge(upper),
                (lower, upper) => *lower = upper.clone(),
            }
            let after = member.size();
            self.size.records = self.size.records + after.records - before.records;
            self.size.text = self.size.text + after.text - before.text;
            self.size.nesting = self.size.nesting.max(after.nesting + 1);
            if after.nesting < before.nesting {
                let deepest = self.members.iter().map(|(_, value)| value.size().nesting).max();
                self.size.nesting = 1 + deepest.unwrap_or(0);
            }
        }
    }
}

/// The pieces of an unresolved value so far.
pub enum Joined {
    /// All undefined, with the whitespace so far.
    Nothing(String),
    Text(String),
    Array(Rc<Array>),
    Object(Rc<Object>),
}

impl Joined {
    /// With a piece more, and the whitespace before it; nothing if its kind is another one.
    pub fn with(self, gap: &str, piece: Option<Value>) -> Option<Joined> {
        let kind = piece.as_ref().map(Value::kind);
        Some(match (self, piece) {
            (Joined::Nothing(gaps), None) => Joined::Nothing(gaps + gap),
            (Joined::Nothing(_), Some(Value::Array(array))) => Joined::Array(array),
            (Joined::Nothing(_), Some(Value::Object(object))) => Joined::Object(object),
            (Joined::Nothing(gaps), Some(simple)) => Joined::Text(gaps + gap + simple.text()),
            (Joined::Text(text), None) => Joined::Text(text + gap),
            (Joined::Text(text), Some(simple)) if kind == Some(Kind::Simple) => {
                Joined::Text(text + gap + simple.text())
            }
            (joined, None) => joined,
            (Joined::Array(mut array), Some(Value::Array(further))) => {
                Rc::make_mut(&mut array).join(&further);
                Joined::Array(array)
            }
            (Joined::Object(mut object), Some(Value::Object(further))) => {
                Rc::make_mut(&mut object).merge(&further);
                Joined::Object(object)
            }
            _ => return None,
        })
    }

    pub fn fits(&self) -> bool {
        match self {
            Joined::Nothing(_) => true,
            Joined::Text(text) => text.len() <= MAX_BYTES,
            Joined::Array(array) => array.size.fits(),
            Joined::Object(object) => object.size.fits(),
        }
    }

    pub fn value(self) -> Option<Value> {
        match self {
            Joined::Nothing(_) => None,
            Joined::Text(text) => Some(Value::String(text.into())),
            Joined::Array(array) => Some(Value::Array(array)),
            Joined::Object(object) => Some(Value::Object(object)),
        }
    }
}

/// Writes the records of a value, and its texts behind those that are there.
pub fn write(value: &Value, names: &[Rc<str>], records: &mut Vec<u8>, text: &mut Vec<u8>) {
    match value {
        Value::Null => records.push(1),
        Value::False => records.push(2),
        Value::True => records.push(3),
        Value::Number(written) => write_text(4, written, records, text),
        Value::String(written) => write_text(5, written, records, text),
        Value::Array(array) => {
            write_head(6, array.elements.len(), records);
            array.elements.iter().for_each(|element| write(element, names, records, text));
        }
        Value::Object(object) => {
            write_head(7, object.members.len(), records);
            for (key, value) in &object.members {
                write_text(8, &names[key.number as usize], records, text);
                write(value, names, records, text);
            }
        }
    }
}

/// A kind and a number of two bytes, "high byte first".
pub fn write_head(kind: u8, number: usize, records: &mut Vec<u8>) {
    records.push(kind);
    records.extend((number as u16).to_be_bytes());
}

fn write_text(kind: u8, written: &str, records: &mut Vec<u8>, text: &mut Vec<u8>) {
    write_head(kind, text.len(), records);
    records.extend((written.len() as u16).to_be_bytes());
    text.extend(written.bytes());
}
