"""A plain resolver of documents, straight from document 01, over the items of the plain reader beside it.

It is written for clarity alone, and shares nothing with the code under test: a document is a tree of Python objects, the
layers of a path are a generator, an unresolved value is worked out by recursion, and a refusal is an exception.
`resolve.py` holds its hand-written values against it and takes the trail from it.

A value is None, a bool, a Number, a bytes (a string), a list or a dict; UNDEFINED is none of them.
"""

import sys
import threading

import plain_reader
from plain_reader import ARRAY, FALSE, NULL, NUMBER, OBJECT, OPTIONAL, PIECE, REQUIRED, STRING, TRUE, UNRESOLVED, Refused

MAX_BUDGET, MAX_RECORDS, MAX_TEXT, MAX_NESTING, MAX_ROOM = 256, 16384, 16384, 32, 32768
KEY, ENTRY, UNDEFINED_ENTRY = 8, 9, 10

UNDEFINED = object()


class Number(bytes):
    """A number, as it is written."""


# ---- the document as a tree


class Literal:
    """An object as it is written: its fields in turn, each a key and a node."""

    def __init__(self, fields):
        self.fields = fields


class Array:
    def __init__(self, elements):
        self.elements = elements


class Simple:
    def __init__(self, value):
        self.value = value


class Piece:
    """A substitution has a path, any other piece a node."""

    def __init__(self, item, node=None, path=None):
        self.gap, self.place, self.node, self.path = item.before, item.place, node, path
        self.required = item.kind == PIECE + REQUIRED


class Unresolved:
    """`back` is set where it is the whole value of a field of an open object: for each element of the field's path the
    literal, the field's index in it, and the key."""

    def __init__(self, number, pieces):
        self.number, self.pieces, self.back = number, pieces, None

    def place(self):
        return self.pieces[0].place


def simple(kind, text):
    return Simple({NULL: None, FALSE: False, TRUE: True, NUMBER: Number(text)}.get(kind, text))


def substitution_path(item):
    texts = item.text[: len(item.text) - 2 * item.number]
    ends = item.text[len(texts) :]
    bounds = [0] + [int.from_bytes(ends[i : i + 2], "big") for i in range(0, len(ends), 2)]
    return [texts[a:b] for a, b in zip(bounds, bounds[1:])]


class Tree:
    def __init__(self, items):
        self.items = items
        self.unresolved = {}
        self.root = self.node(0)
        if isinstance(self.root, Literal):
            self.open(self.root, [])

    def children(self, i):
        at = i + 1
        while at < i + self.items[i].size:
            yield at
            at += self.items[at].size

    def members(self, i):
        """The fields or elements of a container: its own, or those of its pieces in turn."""
        for child in self.children(i):
            if self.items[child].kind >= PIECE:
                yield from self.children(child)
            else:
                yield child

    def node(self, i):
        item = self.items[i]
        kind = item.kind % PIECE
        if kind == OBJECT:
            return Literal([(self.items[at].before, self.node(at)) for at in self.members(i)])
        if kind == ARRAY:
            return Array([self.node(at) for at in self.members(i)])
        if kind == UNRESOLVED:
            value = Unresolved(item.number, [self.piece(at) for at in self.children(i)])
            self.unresolved[item.number] = value
            return value
        return simple(kind, item.text)

    def piece(self, i):
        item = self.items[i]
        if item.kind in (PIECE + REQUIRED, PIECE + OPTIONAL):
            return Piece(item, path=substitution_path(item))
        return Piece(item, node=self.node(i))

    def open(self, literal, chain):
        """The root object is open, and so is a literal that is the whole value of a field of an open object."""
        for index, (key, node) in enumerate(literal.fields):
            here = chain + [(literal, index, key)]
            if isinstance(node, Literal):
                self.open(node, here)
            elif isinstance(node, Unresolved):
                node.back = here


# ---- values: sizes, joins, records


def nesting(value):
    if isinstance(value, (list, dict)):
        members = value if isinstance(value, list) else value.values()
        return 1 + max(map(nesting, members), default=0)
    return 0


def laid(value, offset):
    """The records of a value whose first text has this offset, and its texts."""

    def text(kind, content):
        nonlocal texts
        at = offset + len(texts)
        texts += content
        return bytes([kind]) + at.to_bytes(4, "big")[-2:] + len(content).to_bytes(4, "big")[-2:]

    def records(value):
        if value is None:
            return bytes([NULL])
        if isinstance(value, bool):
            return bytes([TRUE if value else FALSE])
        if isinstance(value, bytes):
            return text(NUMBER if isinstance(value, Number) else STRING, value)
        head = bytes([ARRAY if isinstance(value, list) else OBJECT]) + len(value).to_bytes(4, "big")[-2:]
        if isinstance(value, list):
            return head + b"".join([records(member) for member in value])
        return head + b"".join([text(KEY, key) + records(member) for key, member in value.items()])

    texts = b""
    return records(value), texts


def sized(value):
    records, texts = laid(value, 0)
    if nesting(value) > MAX_NESTING or len(records) > MAX_RECORDS or len(texts) > MAX_TEXT:
        raise Refused(13, 0)
    return value


def text_of(value):
    """The text of a simple value in a join: "numbers as written"."""
    if isinstance(value, bytes):
        return bytes(value)
    return {None: b"null", False: b"false", True: b"true"}[value]


def kind_of(value):
    return value.__class__ if isinstance(value, (list, dict)) else bytes


def merged(lower, upper):
    """Two finished objects: a key of both merges if both values are objects, else the upper one counts."""
    result = dict(lower)
    for key, value in upper.items():
        both = isinstance(value, dict) and isinstance(lower.get(key), dict)
        result[key] = merged(lower[key], value) if both else value
    return result


# ---- resolving


class Resolver:
    def __init__(self, tree, environment, budget, trail_room, text_room):
        self.tree, self.environment, self.budget = tree, environment, budget
        self.trail_room, self.text_room = trail_room, text_room
        self.trail, self.text = b"", b""
        self.answers, self.begun = {}, set()

    def answer(self, value):
        """ "A needed blend is taken from the trail; else 10; else 12; else it is begun, and when answered becomes the next
        entry." """
        if value.number not in self.answers:
            if value.number in self.begun:
                raise Refused(10, value.place())
            if len(self.begun) == self.budget:
                raise Refused(12, value.place())
            self.begun.add(value.number)
            result = self.work(value)
            self.lay(value.number, result)
            self.answers[value.number] = result
        return self.answers[value.number]

    def lay(self, number, answer):
        head = number.to_bytes(2, "big")
        if answer is UNDEFINED:
            entry, texts = bytes([UNDEFINED_ENTRY]) + head, b""
        else:
            records, texts = laid(answer, len(self.text))
            entry = bytes([ENTRY]) + head + records
        if len(self.trail + entry) > self.trail_room or len(self.text + texts) > self.text_room:
            raise Refused(14, 0)
        self.trail += entry
        self.text += texts

    # ---- layers: nodes of the document and finished values

    def deeper(self, layers, key):
        """ "a literal gives its fields named k, last first; a blend's answer gives its member k; an undefined answer gives
        nothing; any other value stops the walk" """
        for layer in layers:
            if isinstance(layer, Unresolved):
                layer = self.answer(layer)
            if layer is UNDEFINED:
                continue
            if isinstance(layer, Literal):
                yield from (node for name, node in reversed(layer.fields) if name == key)
            elif isinstance(layer, dict):
                if key in layer:
                    yield layer[key]
            else:
                return

    def before(self, chain):
        """ "earlier fields of that key in the same literal, then the literal's lower layers" """
        if not chain:
            return
        literal, index, key = chain[-1]
        yield from (node for name, node in reversed(literal.fields[:index]) if name == key)
        yield from self.deeper(self.before(chain[:-1]), key)

    def layers(self, value, path):
        keys = [key for _, _, key in value.back or []]
        if keys and path[: len(keys)] == keys:
            found, rest = self.before(value.back), path[len(keys) :]
        else:
            found, rest = iter([self.tree.root]), path
        for key in rest:
            found = self.deeper(found, key)
        return found

    # ---- values

    def of_layers(self, layers):
        """ "take layers last first, skip undefined answers; a non-object is the result at once; an object merges with those
        below until a non-object or the end" """
        objects = []
        for layer in layers:
            if isinstance(layer, Unresolved):
                layer = self.answer(layer)
            if layer is UNDEFINED:
                continue
            if not isinstance(layer, (Literal, dict)):
                if objects:
                    break
                return self.of_node(layer)
            objects.append(layer)
        return self.of_objects(objects) if objects else UNDEFINED

    def of_objects(self, objects):
        """ "each key's value is taken in order of first appearance, lowest counted layer first" """
        keys = {}
        for layer in reversed(objects):
            keys.update(dict.fromkeys(name for name, _ in layer.fields) if isinstance(layer, Literal) else layer)
        made = {key: self.of_layers(self.deeper(objects, key)) for key in keys}
        return {key: value for key, value in made.items() if value is not UNDEFINED}

    def of_node(self, node):
        if isinstance(node, Simple):
            return node.value
        if isinstance(node, Array):
            made = [self.of_layers(iter([element])) for element in node.elements]
            return [value for value in made if value is not UNDEFINED]
        if isinstance(node, Literal):
            return self.of_objects([node])
        return node

    def of_piece(self, value, piece):
        if piece.node is not None:
            return self.of_node(piece.node)
        result = self.of_layers(self.layers(value, piece.path))
        if result is UNDEFINED:
            result = self.environment.get(b".".join(piece.path), UNDEFINED)
        if result is UNDEFINED and piece.required:
            raise Refused(9, piece.place)
        return result

    # ---- unresolved values

    def work(self, value):
        if len(value.pieces) == 1:
            result = self.of_piece(value, value.pieces[0])
            return result if result is UNDEFINED else sized(result)
        joined, blank = UNDEFINED, b""
        for piece in value.pieces:
            result = self.of_piece(value, piece)
            if result is UNDEFINED:
                if isinstance(joined, bytes):
                    joined = sized(joined + piece.gap)
                blank += piece.gap
                continue
            sized(result)
            if joined is not UNDEFINED and kind_of(result) is not kind_of(joined):
                raise Refused(11, piece.place)
            if isinstance(result, list):
                joined = (joined if joined is not UNDEFINED else []) + result
            elif isinstance(result, dict):
                joined = merged(joined if joined is not UNDEFINED else {}, result)
            else:
                joined = (joined if joined is not UNDEFINED else blank) + piece.gap + text_of(result)
            sized(joined)
        return joined


def variables(environment):
    """ "the first of equal names counts" """
    result = {}
    for entry in environment.split(b"\0")[:-1]:
        name, _, text = entry.partition(b"=")
        result.setdefault(name, text)
    return result


def resolve(document, environment=b"", budget=MAX_BUDGET, rooms=(MAX_ROOM, MAX_ROOM, MAX_ROOM)):
    """(number, place) of a refusal; or (0, count), the root's value, and the used parts of trail, table and text."""
    if budget > MAX_BUDGET:
        return (1, 0), UNDEFINED, ()
    read, items = plain_reader.read(document, environment)
    if read[0] != 0:
        return read, UNDEFINED, ()
    trail_room, table_room, text_room = (min(room, MAX_ROOM) for room in rooms)
    try:
        tree = Tree(items)
        resolver = Resolver(tree, variables(environment), budget, trail_room, text_room)
        value = sized(resolver.of_node(tree.root))
        table, texts = laid(value, len(resolver.text))
        if len(table) > table_room or len(resolver.text + texts) > text_room:
            raise Refused(14, 0)
    except Refused as refused:
        return refused.answer, UNDEFINED, ()
    return (0, len(resolver.begun)), value, (resolver.trail, table, resolver.text + texts)


def with_stack(run):
    """Runs with room for the recursion of any document; what it raises is raised here."""
    raised = []

    def kept():
        try:
            run()
        except BaseException as exception:
            raised.append(exception)

    sys.setrecursionlimit(1_000_000)
    threading.stack_size(512 * 1024 * 1024)
    thread = threading.Thread(target=kept)
    thread.start()
    thread.join()
    if raised:
        raise raised[0]
