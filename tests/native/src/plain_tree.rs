//! What the plain reader makes of a document.

use std::rc::Rc;

/// What was read. Objects and unresolved values are named by their place in these lists.
pub struct Document {
    pub root: Node,
    pub objects: Vec<Literal>,
    /// By first byte, so that an unresolved value's index is its number.
    pub unresolved: Vec<Unresolved>,
    /// The texts of the keys, by their numbers.
    pub names: Vec<Rc<str>>,
}

/// A key: equal texts have equal numbers.
#[derive(Clone, Copy, Debug, PartialEq, Eq, Hash, PartialOrd, Ord)]
pub struct Key {
    pub number: u32,
    /// The bytes of its text.
    pub length: u32,
}

#[derive(Clone)]
pub enum Node {
    Null,
    False,
    True,
    Number(Rc<str>),
    String(Rc<str>),
    Array(Vec<Node>),
    Object(usize),
    Unresolved(usize),
}

/// An object literal.
pub struct Literal {
    pub fields: Vec<Field>,
    /// The fields' indices by key, those of one key in order.
    by_key: Vec<usize>,
    /// No key comes twice.
    pub distinct: bool,
    /// The field whose whole value this is, if that is a field of an open object.
    pub home: Option<Home>,
}

pub struct Field {
    pub key: Key,
    pub value: Node,
}

/// A field of an open object.
#[derive(Clone, Copy)]
pub struct Home {
    pub object: usize,
    pub field: usize,
}

/// A value with a substitution among its pieces.
pub struct Unresolved {
    pub pieces: Vec<Piece>,
    pub home: Option<Home>,
}

pub struct Piece {
    /// Its first byte.
    pub place: usize,
    /// The whitespace before it.
    pub gap: String,
    pub part: Part,
}

pub enum Part {
    Literal(Node),
    Substitution { path: Vec<Key>, required: bool },
}

impl Unresolved {
    pub fn place(&self) -> usize {
        self.pieces[0].place
    }
}

impl Literal {
    pub fn new(fields: Vec<Field>) -> Literal {
        Literal { fields, by_key: Vec::new(), distinct: false, home: None }
    }

    /// The indices of the fields with this key, in order.
    pub fn named(&self, key: Key) -> &[usize] {
        let from = self.by_key.partition_point(|&i| self.fields[i].key < key);
        let count = self.by_key[from..].partition_point(|&i| self.fields[i].key == key);
        &self.by_key[from..from + count]
    }

    pub fn sort(&mut self) {
        let fields = &self.fields;
        self.by_key = (0..fields.len()).collect();
        self.by_key.sort_by_key(|&i| fields[i].key);
        self.distinct = self.by_key.windows(2).all(|pair| fields[pair[0]].key != fields[pair[1]].key);
    }
}

impl Node {
    /// The text of a simple value, as a string made of several pieces has it.
    pub fn text(&self) -> &str {
        match self {
            Node::Null => "null",
            Node::False => "false",
            Node::True => "true",
            Node::Number(text) | Node::String(text) => text,
            _ => unreachable!("only simple values have a text"),
        }
    }

    pub fn kind(&self) -> u8 {
        match self {
            Node::Array(_) => 1,
            Node::Object(_) => 2,
            _ => 0,
        }
    }
}

impl Document {
    /// Gives each unresolved value its number in place of the index with which it was read.
    pub fn number(&mut self, numbers: &[usize]) {
        number_node(&mut self.root, numbers);
        for object in &mut self.objects {
            object.fields.iter_mut().for_each(|field| number_node(&mut field.value, numbers));
        }
        for piece in self.unresolved.iter_mut().flat_map(|unresolved| &mut unresolved.pieces) {
            if let Part::Literal(node) = &mut piece.part {
                number_node(node, numbers);
            }
        }
        self.unresolved.sort_by_key(Unresolved::place);
    }

    /// "The root object is open, and so is a literal that is the whole value of a field of an open object."
    pub fn open(&mut self, object: usize) {
        for field in 0..self.objects[object].fields.len() {
            let home = Some(Home { object, field });
            match self.objects[object].fields[field].value {
                Node::Object(inner) => {
                    self.objects[inner].home = home;
                    self.open(inner);
                }
                Node::Unresolved(number) => self.unresolved[number].home = home,
                _ => {}
            }
        }
    }
}

fn number_node(node: &mut Node, numbers: &[usize]) {
    match node {
        Node::Unresolved(index) => *index = numbers[*index],
        Node::Array(elements) => elements.iter_mut().for_each(|element| number_node(element, numbers)),
        _ => {}
    }
}
