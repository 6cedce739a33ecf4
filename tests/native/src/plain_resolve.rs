//! A plain resolver and a plain check: document 01 put into everyday Rust with a heap, to hold the library against. It
//! shares nothing with the library, neither code nor definitions, so that a mistake in one is no mistake in the other.
//!
//! It recurses as deep as values need one another: lend it a stack of 64 MB (`with_stack`).

use crate::plain_pieces::refuse;
use crate::plain_tree::{Document, Home, Key, Node, Part, Unresolved};
use crate::plain_values::{write, write_head, Array, Joined, Object, Value};
use crate::{plain_read, Refusal};
use std::{collections::HashMap, rc::Rc};

const MAX_DOCUMENT: usize = 32_768;
const MAX_ENVIRONMENT: usize = 8_192;
const MAX_ENTRIES: usize = 64;
const MAX_BUDGET: u64 = 256;
/// A buffer's first bytes that are its room, and the size of a part that may be lent.
const MAX_PART: usize = 32_768;

/// What a resolution hands back: the used parts.
#[derive(Clone, Debug, Default, PartialEq, Eq)]
pub struct Sheet {
    pub count: usize,
    pub trail: Vec<u8>,
    pub table: Vec<u8>,
    pub text: Vec<u8>,
}

/// The lengths of the three buffers.
#[derive(Clone, Copy, Debug)]
pub struct Rooms {
    pub trail: usize,
    pub table: usize,
    pub text: usize,
}

impl Rooms {
    pub const FULL: Rooms = Rooms { trail: MAX_PART, table: MAX_PART, text: MAX_PART };
}

/// Runs `work` with a stack for the longest chain of needs.
pub fn with_stack<T: Send + 'static>(work: impl FnOnce() -> T + Send + 'static) -> T {
    let thread = std::thread::Builder::new().stack_size(64 << 20).spawn(work).expect("a thread can be had");
    thread.join().unwrap_or_else(|panic| std::panic::resume_unwind(panic))
}

pub fn resolve(document: &[u8], environment: &[u8], budget: u64, rooms: Rooms) -> Result<Sheet, Refusal> {
    let names = read_environment(environment);
    let (Some(environment), true) = (names, document.len() <= MAX_DOCUMENT && budget <= MAX_BUDGET) else {
        return refuse(1, 0);
    };
    let document = plain_read::read(document)?;
    let mut evaluator = Evaluator::new(&document, environment, Some(budget as usize), rooms);
    let table = evaluator.root()?;
    let mut sheet = evaluator.sheet;
    let size = table.size();
    if !size.fits() {
        return refuse(13, 0);
    }
    if size.records > rooms.table.min(MAX_PART) || size.text > rooms.text.min(MAX_PART) - sheet.text.len() {
        return refuse(14, 0);
    }
    write(&table, &document.names, &mut sheet.table, &mut sheet.text);
    Ok(sheet)
}

/// "yes, or a refusal: 1 to 8 and a reading 11 as in resolve, else 17"
pub fn check(document: &[u8], environment: &[u8], trail: &[u8], table: &[u8], text: &[u8]) -> Result<(), Refusal> {
    let names = read_environment(environment);
    let lent = [trail, table, text].iter().all(|part| part.len() <= MAX_PART);
    let (Some(environment), true) = (names, lent && document.len() <= MAX_DOCUMENT) else {
        return refuse(1, 0);
    };
    let document = plain_read::read(document)?;
    let mut evaluator = Evaluator::new(&document, environment, None, Rooms::FULL);
    match evaluator.accepts(trail, table, text) {
        Ok(true) => Ok(()),
        _ => refuse(17, 0),
    }
}

/// The texts of the environment by name, if it keeps to its rule; "the first of equal names counts".
fn read_environment(environment: &[u8]) -> Option<HashMap<&str, &str>> {
    if environment.len() > MAX_ENVIRONMENT {
        return None;
    }
    let text = std::str::from_utf8(environment).ok()?;
    let mut names = HashMap::new();
    for (i, entry) in text.split_inclusive('\0').enumerate() {
        let (name, text) = entry.strip_suffix('\0')?.split_once('=')?;
        if name.is_empty() || i == MAX_ENTRIES {
            return None;
        }
        names.entry(name).or_insert(text);
    }
    Some(names)
}

/// How far an unresolved value is.
#[derive(Clone)]
enum State {
    Waiting,
    Begun,
    Answered(Option<Value>),
}

/// A layer of a path: what is written, or a part of an answer.
#[derive(Clone)]
enum Layer<'a> {
    Written(&'a Node),
    Finished(Value),
}

/// Where the walk along a path begins.
#[derive(Clone, Copy)]
enum Start {
    Root,
    /// The layers of a field's path before that field.
    Before(Home),
}

type Step<'s, 'a> = &'s mut dyn FnMut(&mut Evaluator<'a>, Layer<'a>) -> Result<bool, Refusal>;

struct Evaluator<'a> {
    document: &'a Document,
    environment: HashMap<&'a str, &'a str>,
    /// How many may be begun; `None` in check, where none is.
    budget: Option<usize>,
    rooms: Rooms,
    states: Vec<State>,
    sheet: Sheet,
}

impl<'a> Evaluator<'a> {
    fn new(
        document: &'a Document,
        environment: HashMap<&'a str, &'a str>,
        budget: Option<usize>,
        rooms: Rooms,
    ) -> Evaluator<'a> {
        let states = vec![State::Waiting; document.unresolved.len()];
        Evaluator { document, environment, budget, rooms, states, sheet: Sheet::default() }
    }

    fn root(&mut self) -> Result<Value, Refusal> {
        let document = self.document;
        Ok(self.node(&document.root)?.expect("the root is an object or an array"))
    }

    // ---- Order

    /// "A needed blend is taken from the trail; else 10; else 12; else it is begun, and when answered becomes the next
    /// entry."
    fn answer(&mut self, number: usize) -> Result<Option<Value>, Refusal> {
        let place = self.document.unresolved[number].place();
        match &self.states[number] {
            State::Answered(answer) => return Ok(answer.clone()),
            State::Begun => return refuse(10, place),
            State::Waiting => {}
        }
        match self.budget {
            None => return refuse(17, 0),
            Some(budget) if self.sheet.count == budget => return refuse(12, place),
            Some(_) => {}
        }
        self.states[number] = State::Begun;
        self.sheet.count += 1;
        let answer = self.unresolved(number)?;
        let size = answer.as_ref().map(Value::size).unwrap_or_default();
        if self.sheet.trail.len() + 3 + size.records > self.rooms.trail.min(MAX_PART)
            || self.sheet.text.len() + size.text > self.rooms.text.min(MAX_PART)
        {
            return refuse(14, 0);
        }
        self.write_entry(number, &answer);
        self.states[number] = State::Answered(answer.clone());
        Ok(answer)
    }

    fn write_entry(&mut self, number: usize, answer: &Option<Value>) {
        let Sheet { trail, text, .. } = &mut self.sheet;
        match answer {
            Some(value) => {
                write_head(9, number, trail);
                write(value, &self.document.names, trail, text);
            }
            None => write_head(10, number, trail),
        }
    }

    /// Whether each entry "is what the rules give its blend with all needed blends taken from earlier entries" and the
    /// table the root's value.
    fn accepts(&mut self, trail: &[u8], table: &[u8], text: &[u8]) -> Result<bool, Refusal> {
        while self.sheet.trail.len() < trail.len() {
            let number = match trail[self.sheet.trail.len()..] {
                [9 | 10, high, low, ..] => usize::from(high) << 8 | usize::from(low),
                _ => return Ok(false),
            };
            if !matches!(self.states.get(number), Some(State::Waiting)) {
                return Ok(false);
            }
            let (entry, words) = (self.sheet.trail.len(), self.sheet.text.len());
            let answer = self.unresolved(number)?;
            self.write_entry(number, &answer);
            if !trail[entry..].starts_with(&self.sheet.trail[entry..])
                || text.get(words..).is_none_or(|rest| !rest.starts_with(&self.sheet.text[words..]))
            {
                return Ok(false);
            }
            self.states[number] = State::Answered(answer);
        }
        let root = self.root()?;
        if !root.size().fits() {
            return Ok(false);
        }
        write(&root, &self.document.names, &mut self.sheet.table, &mut self.sheet.text);
        Ok(self.sheet.table == table && self.sheet.text == text)
    }

    // ---- Values

    /// The value of something written that is no layer: an element, a literal piece, the root.
    fn node(&mut self, node: &'a Node) -> Result<Option<Value>, Refusal> {
        Ok(Some(match node {
            Node::Null => Value::Null,
            Node::False => Value::False,
            Node::True => Value::True,
            Node::Number(text) => Value::Number(text.clone()),
            Node::String(text) => Value::String(text.clone()),
            Node::Array(elements) => {
                let mut array = Array::default();
                for element in elements {
                    if let Some(value) = self.node(element)? {
                        array.push(value);
                    }
                }
                Value::Array(Rc::new(array))
            }
            Node::Object(_) => self.merged(vec![Layer::Written(node)])?,
            Node::Unresolved(number) => return self.answer(*number),
        }))
    }

    /// A layer with its answer in place of an unresolved value; nothing if that is undefined.
    fn known(&mut self, layer: Layer<'a>) -> Result<Option<Layer<'a>>, Refusal> {
        match layer {
            Layer::Written(Node::Unresolved(number)) => Ok(self.answer(*number)?.map(Layer::Finished)),
            layer => Ok(Some(layer)),
        }
    }

    /// Walks the layers of a path, last first, until a step is told to be the last.
    fn walk(&mut self, start: Start, keys: &[Key], step: Step<'_, 'a>) -> Result<bool, Refusal> {
        match keys.split_last() {
            Some((key, outer)) => self.walk(start, outer, &mut |evaluator, layer| evaluator.members(layer, *key, step)),
            None => match start {
                Start::Root => {
                    let document = self.document;
                    step(self, Layer::Written(&document.root))
                }
                Start::Before(home) => self.before(home, step),
            },
        }
    }

    /// "a literal gives its fields named k, last first; a blend's answer gives its member k; an undefined answer gives
    /// nothing; any other value stops the walk"
    fn members(&mut self, layer: Layer<'a>, key: Key, step: Step<'_, 'a>) -> Result<bool, Refusal> {
        let document = self.document;
        match self.known(layer)? {
            None => Ok(true),
            Some(Layer::Written(Node::Object(object))) => {
                let object = &document.objects[*object];
                for field in object.named(key).iter().rev() {
                    if !step(self, Layer::Written(&object.fields[*field].value))? {
                        return Ok(false);
                    }
                }
                Ok(true)
            }
            Some(Layer::Finished(Value::Object(object))) => match object.get(key) {
                Some(value) => step(self, Layer::Finished(value.clone())),
                None => Ok(true),
            },
            Some(_) => Ok(false),
        }
    }

    /// "earlier fields of that key in the same literal, then the literal's lower layers"
    fn before(&mut self, home: Home, step: Step<'_, 'a>) -> Result<bool, Refusal> {
        let object = &self.document.objects[home.object];
        let key = object.fields[home.field].key;
        for field in object.named(key).iter().rev().filter(|field| **field < home.field) {
            if !step(self, Layer::Written(&object.fields[*field].value))? {
                return Ok(false);
            }
        }
        match object.home {
            Some(outer) => self.before(outer, &mut |evaluator, layer| evaluator.members(layer, key, step)),
            None => Ok(true),
        }
    }

    /// The value of a path.
    fn value(&mut self, start: Start, keys: &[Key]) -> Result<Option<Value>, Refusal> {
        let (mut objects, mut other) = (Vec::new(), None);
        self.walk(start, keys, &mut |evaluator, layer| evaluator.take(layer, &mut objects, &mut other))?;
        self.taken(objects, other)
    }

    /// One layer more of a value: "a non-object is the result at once; an object merges with those below until a
    /// non-object or the end".
    fn take(
        &mut self,
        layer: Layer<'a>,
        objects: &mut Vec<Layer<'a>>,
        other: &mut Option<Value>,
    ) -> Result<bool, Refusal> {
        match self.known(layer)? {
            None => return Ok(true),
            Some(layer @ (Layer::Written(Node::Object(_)) | Layer::Finished(Value::Object(_)))) => {
                objects.push(layer);
                return Ok(true);
            }
            Some(_) if !objects.is_empty() => {}
            Some(Layer::Written(node)) => *other = self.node(node)?,
            Some(Layer::Finished(value)) => *other = Some(value),
        }
        Ok(false)
    }

    fn taken(&mut self, objects: Vec<Layer<'a>>, other: Option<Value>) -> Result<Option<Value>, Refusal> {
        if objects.is_empty() {
            Ok(other)
        } else {
            self.merged(objects).map(Some)
        }
    }

    /// The object of these layers, last first: "each key's value is taken in order of first appearance, lowest counted
    /// layer first".
    fn merged(&mut self, mut layers: Vec<Layer<'a>>) -> Result<Value, Refusal> {
        let document = self.document;
        let mut object = Object::default();
        if let [layer] = &layers[..] {
            match layer {
                Layer::Finished(value) => return Ok(value.clone()),
                Layer::Written(Node::Object(literal)) if document.objects[*literal].distinct => {
                    for field in &document.objects[*literal].fields {
                        if let Some(value) = self.node(&field.value)? {
                            object.push(field.key, value);
                        }
                    }
                    return Ok(Value::Object(Rc::new(object)));
                }
                Layer::Written(_) => {}
            }
        }
        layers.reverse();
        for (key, members) in grouped(document, &layers) {
            let (mut objects, mut other) = (Vec::new(), None);
            for member in members.into_iter().rev() {
                if !self.take(member, &mut objects, &mut other)? {
                    break;
                }
            }
            if let Some(value) = self.taken(objects, other)? {
                object.push(key, value);
            }
        }
        Ok(Value::Object(Rc::new(object)))
    }

    // ---- Unresolved values

    /// "pieces left to right, each worked out, then its size tested (13), its kind against the first defined one (11), and
    /// the size of the join so far (13)"
    fn unresolved(&mut self, number: usize) -> Result<Option<Value>, Refusal> {
        let unresolved = &self.document.unresolved[number];
        let path = self.path(unresolved);
        let mut joined = Joined::Nothing(String::new());
        for piece in &unresolved.pieces {
            let value = match &piece.part {
                Part::Literal(node) => self.node(node)?,
                Part::Substitution { path: keys, required } => {
                    let value = self.substitution(unresolved.home, &path, keys)?;
                    if value.is_none() && *required {
                        return refuse(9, piece.place);
                    }
                    value
                }
            };
            if value.as_ref().is_some_and(|value| !value.size().fits()) {
                return refuse(13, 0);
            }
            if unresolved.pieces.len() == 1 {
                return Ok(value);
            }
            joined = joined.with(&piece.gap, value).ok_or(Refusal { number: 11, place: piece.place })?;
            if !joined.fits() {
                return refuse(13, 0);
            }
        }
        Ok(joined.value())
    }

    /// The path of the open object's field whose value this is; empty if there is none.
    fn path(&self, unresolved: &Unresolved) -> Vec<Key> {
        let mut path = Vec::new();
        let mut home = unresolved.home;
        while let Some(Home { object, field }) = home {
            let object = &self.document.objects[object];
            path.push(object.fields[field].key);
            home = object.home;
        }
        path.reverse();
        path
    }

    /// What a substitution in the field at `home` with the path `own` finds, or the environment in its place.
    fn substitution(&mut self, home: Option<Home>, own: &[Key], keys: &[Key]) -> Result<Option<Value>, Refusal> {
        let found = match (home, keys.strip_prefix(own)) {
            (Some(home), Some(further)) => self.value(Start::Before(home), further)?,
            _ => self.value(Start::Root, keys)?,
        };
        if found.is_some() || self.environment.is_empty() {
            return Ok(found);
        }
        let names: Vec<&str> = keys.iter().map(|key| &*self.document.names[key.number as usize]).collect();
        Ok(self.environment.get(&*names.join(".")).map(|text| Value::String((*text).into())))
    }
}

/// The members of objects by key, in order of first appearance; those of one key in order.
fn grouped<'a>(document: &'a Document, layers: &[Layer<'a>]) -> Vec<(Key, Vec<Layer<'a>>)> {
    let mut groups: Vec<(Key, Vec<Layer>)> = Vec::new();
    let mut index = HashMap::new();
    let mut add = |key: Key, member| {
        let group = *index.entry(key.number).or_insert_with(|| {
            groups.push((key, Vec::new()));
            groups.len() - 1
        });
        groups[group].1.push(member);
    };
    for layer in layers {
        match layer {
            Layer::Written(Node::Object(object)) => {
                document.objects[*object].fields.iter().for_each(|field| add(field.key, Layer::Written(&field.value)));
            }
            Layer::Finished(Value::Object(object)) => {
                object.members().iter().for_each(|(key, value)| add(*key, Layer::Finished(value.clone())));
            }
            _ => unreachable!("only objects merge"),
        }
    }
    groups
}
