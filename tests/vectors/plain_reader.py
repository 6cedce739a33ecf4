"""A plain reader of documents, straight from document 01: what it refuses, and the items of what it reads.

It is written for clarity alone, and shares nothing with the code under test: texts are matched by regular expressions,
a refusal is an exception, and the items are one list that grows while the document is read. `read.py` holds its
hand-written answers against it and takes the items of small documents from it.
"""

import re

MAX_DOCUMENT, MAX_ENVIRONMENT, MAX_ENTRIES = 32768, 8192, 64
MAX_NESTING, MAX_ITEMS, MAX_UNRESOLVED, MAX_PATH = 32, 2048, 256, 16

NULL, FALSE, TRUE, NUMBER, STRING, ARRAY, OBJECT, UNRESOLVED, REQUIRED, OPTIONAL = range(1, 11)
PIECE = 16

# Whitespace is document 01's, bytes 09 to 0D, 1C to 1F, 20, and by change 2 every character of Unicode 15's categories Zs, Zl
# and Zp, and U+FEFF; newline is 0A only. A comment runs from `#` or `//` up to the newline.
WIDE_SPACES = [chr(c).encode() for c in (0xA0, 0x1680, *range(0x2000, 0x200B), 0x2028, 0x2029, 0x202F, 0x205F, 0x3000, 0xFEFF)]
WIDE_SPACE = b"|".join(WIDE_SPACES)
GAP = re.compile(rb"(?:[\x09-\x0d\x1c-\x20]|" + WIDE_SPACE + rb"|(?:#|//)[^\n]*)*")
SPACES = re.compile(rb"(?:[\x09\x0b-\x0d\x1c-\x20]|" + WIDE_SPACE + rb")*")
TEXT = re.compile(rb"(?:(?!//|" + WIDE_SPACE + rb")[^\x09-\x0d\x1c-\x20$\"{}\[\]:=,+#`^?!@*&\\])+")
NUMERAL = re.compile(rb"-?(?:0|[1-9][0-9]*)(?:\.[0-9]+)?(?:[eE][-+]?[0-9]+)?")
WORD = re.compile(rb"true|false|null")
WORDS = {b"null": NULL, b"false": FALSE, b"true": TRUE}
# The first later run of three or more quotes ends triple quotes, and all but its last three belong to the string.
TRIPLE = re.compile(rb'"""(.*?)"""(?!")', re.DOTALL)
ESCAPED = dict(zip(b'"\\/bfnrt', b'"\\/\b\f\n\r\t'))
# Well-formed UTF-8, as Unicode's table of byte sequences has it.
WELL_FORMED = re.compile(
    rb"(?:[\x00-\x7f]|[\xc2-\xdf][\x80-\xbf]"
    rb"|\xe0[\xa0-\xbf][\x80-\xbf]|[\xe1-\xec\xee\xef][\x80-\xbf]{2}|\xed[\x80-\x9f][\x80-\xbf]"
    rb"|\xf0[\x90-\xbf][\x80-\xbf]{2}|[\xf1-\xf3][\x80-\xbf]{3}|\xf4[\x80-\x8f][\x80-\xbf]{2})*"
)
ENTRY = re.compile(rb"[^=\x00]+=[^\x00]*\x00")


class Refused(Exception):
    def __init__(self, number, place):
        super().__init__(number, place)
        self.answer = (number, place)


class Item:
    """A field, an element or a piece; also the root, which counts as none. `before` is a field's key, or the whitespace
    before a piece."""

    def __init__(self, kind, before, place, text=b"", number=0):
        self.kind, self.size, self.before, self.text, self.place, self.number = kind, 1, before, text, place, number


class Reader:
    def __init__(self, document):
        self.document = document
        self.end = len(document)
        self.at = 0
        self.items = []

    # ---- bytes

    def byte(self, further=0):
        """The byte at the reading place, as a text of one byte; at the end an empty one."""
        return self.document[self.at + further : self.at + further + 1]

    def run(self, pattern):
        """Goes past what the pattern matches here, which may be nothing, and answers it."""
        found = pattern.match(self.document, self.at)
        self.at = found.end()
        return found.group()

    def refuse(self, number, place=None):
        raise Refused(number, self.at if place is None else place)

    def not_allowed(self):
        self.refuse(3 if self.at < self.end else 4)

    # ---- simple pieces

    def starts_simple(self):
        return self.byte() == b'"' or TEXT.match(self.document, self.at) is not None

    def simple(self):
        """Reads a simple piece: its kind, its text, and whether it is in quotes."""
        if self.byte() == b'"':
            return STRING, self.quoted(), True
        if self.byte() in b"-0123456789":
            if not NUMERAL.match(self.document, self.at):
                self.refuse(5)
            return NUMBER, self.run(NUMERAL), False
        if WORD.match(self.document, self.at):
            word = self.run(WORD)
            return WORDS[word], word, False
        return STRING, self.run(TEXT), False

    def quoted(self):
        if self.document.startswith(b'"""', self.at):
            found = TRIPLE.match(self.document, self.at)
            if not found:
                self.refuse(4, self.end)
            self.at = found.end()
            return found.group(1)
        text = b""
        self.at += 1
        while self.byte() != b'"':
            if self.byte() == b"\\":
                text += self.escape()
                continue
            if self.byte() == b"":
                self.refuse(4)
            if self.byte() < b" ":
                self.refuse(5)
            text += self.byte()
            self.at += 1
        self.at += 1
        return text

    def escape(self):
        """Reads an escape, or two that are a surrogate pair. All that is wrong is wrong at the first backslash."""
        start = self.at
        kind = self.document[start + 1 : start + 2]
        if kind and kind[0] in ESCAPED:
            self.at += 2
            return bytes([ESCAPED[kind[0]]])
        unit = self.unit(start)
        if 0xDC00 <= unit <= 0xDFFF:
            self.refuse(5, start)
        if not 0xD800 <= unit <= 0xDBFF:
            return chr(unit).encode()
        mate = self.unit(start)
        if not 0xDC00 <= mate <= 0xDFFF:
            self.refuse(5, start)
        return chr(0x10000 + (unit - 0xD800) * 0x400 + mate - 0xDC00).encode()

    def unit(self, start):
        """Reads a backslash, `u` and four hexadecimal digits."""
        for allowed in (b"\\", b"u", *4 * [b"0123456789abcdefABCDEF"]):
            if self.byte() == b"":
                self.refuse(4)
            if self.byte() not in allowed:
                self.refuse(5, start)
            self.at += 1
        return int(self.document[self.at - 4 : self.at], 16)

    # ---- paths

    def path(self, key):
        """Reads the simple pieces of a path up to the byte that starts no further one. Answers its elements, each as
        the place of its first byte and its text; the text is None where the element is empty and has no quotes."""
        pieces = []  # place, text, whether in quotes
        while True:
            if key and self.byte() == b"$":
                self.refuse(7)
            if not self.starts_simple():
                break
            if pieces and gap:
                pieces.append((self.at - len(gap), gap, False))
            place = self.at
            kind, text, in_quotes = self.simple()
            if key and not pieces and not in_quotes and kind == STRING and (text + b".").startswith(b"include."):
                self.refuse(6, place)
            pieces.append((place, text, in_quotes))
            gap = self.run(SPACES)
        if not pieces:
            return []
        elements = [[pieces[0][0], None]]
        for place, text, in_quotes in pieces:
            parts = [text] if in_quotes else text.split(b".")
            for i, part in enumerate(parts):
                if i > 0:
                    elements.append([place, None])
                if part or in_quotes:
                    elements[-1][1] = (elements[-1][1] or b"") + part
                place += len(part) + 1
        return elements

    def judge(self, elements, seven, *excesses):
        """7 before 8; the first of the elements that are over one of the limits."""
        if not elements or any(text is None for _, text in elements):
            self.refuse(7, seven)
        over = [elements[limit][0] for limit in excesses if limit < len(elements)]
        if over:
            self.refuse(8, min(over))

    # ---- values

    def count(self, item):
        if len(self.items) > MAX_ITEMS:  # the root is among them, and no item
            self.refuse(8, item.place)
        self.items.append(item)
        return item

    def close(self, item):
        """All that was read since this item is inside it."""
        item.size = len(self.items) - self.items.index(item)

    def starts_piece(self):
        if self.byte() == b"$":
            return self.byte(1) == b"{"
        return self.byte() in (b"{", b"[") or self.starts_simple()

    def value(self, item, nesting):
        """Reads the value of a field's or an element's item, in a container of this nesting."""
        if not self.starts_piece():
            self.not_allowed()
        pieces, gap = [], b""
        while self.starts_piece():
            piece = self.count(Item(0, gap, self.at))
            self.piece(piece, nesting)
            self.close(piece)
            pieces.append(piece)
            gap = self.run(SPACES)
        kinds = [piece.kind - PIECE for piece in pieces]
        if REQUIRED in kinds or OPTIONAL in kinds:
            item.kind = UNRESOLVED
            return
        sorts = [max(kind, STRING) for kind in kinds]  # all simple kinds are of one sort
        for piece, sort in zip(pieces, sorts):
            if sort != sorts[0]:
                self.refuse(11, piece.place)
        item.kind = kinds[0] if len(kinds) == 1 else sorts[0]
        if sorts[0] == STRING:
            item.text = b"".join(piece.before + piece.text for piece in pieces)

    def piece(self, piece, nesting):
        if self.byte() in (b"{", b"["):
            if nesting == MAX_NESTING:
                self.refuse(8)
            piece.kind = PIECE + self.container(nesting + 1)
        elif self.byte() == b"$":
            self.substitution(piece)
        else:
            kind, piece.text, _ = self.simple()
            piece.kind = PIECE + kind

    def substitution(self, piece):
        self.at += 2
        piece.kind = PIECE + REQUIRED
        if self.byte() == b"?":
            self.at += 1
            piece.kind = PIECE + OPTIONAL
        self.run(SPACES)
        elements = self.path(key=False)
        if self.byte() != b"}":
            self.not_allowed()
        self.judge(elements, piece.place, MAX_PATH)
        self.at += 1
        texts, ends = b"", b""
        for _, text in elements:
            texts += text
            ends += len(texts).to_bytes(2, "big")
        piece.text = texts + ends
        piece.number = len(elements)

    # ---- containers

    def container(self, nesting):
        opening = self.byte()
        self.at += 1
        if opening == b"{":
            self.members(b"}", self.field, nesting)
            return OBJECT
        self.members(b"]", self.element, nesting)
        return ARRAY

    def members(self, closing, member, nesting):
        """Reads members up to the closing byte; the end closes an object without braces."""
        self.run(GAP)
        while self.byte() != closing:
            if self.byte() == b"":
                self.refuse(4)
            member(nesting)
            gap_start = self.at
            self.run(GAP)
            if self.byte() == b",":
                self.at += 1
                self.run(GAP)
            elif self.byte() not in (closing, b"") and b"\n" not in self.document[gap_start : self.at]:
                self.refuse(3)
        self.at += len(closing)

    def element(self, nesting):
        if not self.starts_piece():
            self.not_allowed()
        item = self.count(Item(0, b"", self.at))
        self.value(item, nesting)
        self.close(item)

    def field(self, nesting):
        start = self.at
        elements = self.path(key=True)
        if not elements:
            self.refuse(3)
        # Each key element is an item, and each after the first opens one nesting.
        self.judge(elements, start, MAX_PATH, MAX_ITEMS + 1 - len(self.items), MAX_NESTING + 1 - nesting)
        items = [self.count(Item(OBJECT, text, place)) for place, text in elements]
        self.run(GAP)
        if self.byte() in (b":", b"="):
            self.at += 1
            self.run(GAP)
        elif self.byte() != b"{":
            self.not_allowed()
        self.value(items[-1], nesting + len(items) - 1)
        for item in items:
            self.close(item)

    def root(self):
        item = Item(OBJECT, b"", 0)
        self.items.append(item)
        self.run(GAP)
        if self.byte() in (b"{", b"["):
            item.kind = self.container(1)
        else:
            self.members(b"", self.field, 1)
        self.run(GAP)
        if self.at < self.end:
            self.refuse(3)
        self.close(item)
        # Unresolved values are numbered by their first byte, which is the order of the items.
        unresolved = [i for i, item in enumerate(self.items) if item.kind == UNRESOLVED]
        if len(unresolved) > MAX_UNRESOLVED:
            self.refuse(8, self.items[unresolved[MAX_UNRESOLVED] + 1].place)
        for number, i in enumerate(unresolved):
            self.items[i].number = number
        return len(unresolved)


def environment_is_right(environment):
    if len(environment) > MAX_ENVIRONMENT or WELL_FORMED.match(environment).end() < len(environment):
        return False
    entries = ENTRY.findall(environment)
    return b"".join(entries) == environment and len(entries) <= MAX_ENTRIES


def read(document, environment):
    """(number, place) of a refusal, and no items; or (0, items, unresolved), and the root and the items."""
    if len(document) > MAX_DOCUMENT or not environment_is_right(environment):
        return (1, 0), []
    ill = WELL_FORMED.match(document).end()
    if ill < len(document):
        return (2, ill), []
    reader = Reader(document)
    try:
        unresolved = reader.root()
    except Refused as refused:
        return refused.answer, []
    return (0, len(reader.items) - 1, unresolved), reader.items


def lines(items):
    """A line for the root and each item, as the program writes it."""
    simple = 0  # the items before this one are pieces of a simple value
    for i, item in enumerate(items):
        texts = (item.before, item.text) if simple <= i else (b"", b"")
        key, text = (part.hex() or "-" for part in texts)
        yield f"{item.kind} {item.size} {key} {text} {item.place} {item.number}"
        if item.kind <= STRING:
            simple = i + item.size
