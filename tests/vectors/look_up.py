#!/usr/bin/env python3
r"""Writes the vectors of look-up: stdin and stdout of the program crates/test_look_up.

Each vector is written from document 01 by hand, its answer too; no look-up is called here. So the vectors are a test of
the definitions as well as of the code.

    stdin   the vectors one after another, to the end of the file. A vector is its table, its text and its path text;
            each of the three is a length of 4 bytes, high byte first, and then so many bytes. A table or a text has at
            most 32,769 bytes, one more than may be lent; a path text at most 1,025.
    stdout  for each vector a line 'number place start size kind length' in decimal. Found: 0 0, then where the value
            starts in the table and its size; of the part that is handed back its first byte and its length. Refused:
            number and place, then 0 0 0 0.
"""

import pathlib

VECTORS = []


def found(start, size):
    return (0, 0, start, size)


def refused(number, place):
    return (number, place, 0, 0)


def look_up(table, text, path, answer):
    table = table if isinstance(table, bytes) else bytes.fromhex(table)
    VECTORS.append((table, text, path, answer))


# ---- Tables

NULL = b"\x01"


def array(count):
    return b"\x06" + count.to_bytes(2, "big")


def object_(count):
    return b"\x07" + count.to_bytes(2, "big")


def key(offset, length):
    return b"\x08" + offset.to_bytes(2, "big") + length.to_bytes(2, "big")


def among(path, *keys, answer):
    """Looks up in an object with these keys, each a null: the object takes 3 bytes, each key 5, each null 1."""
    table, text = object_(len(keys)), b""
    for name in keys:
        table += key(len(text), len(name)) + NULL
        text += name
    look_up(table, text, path, answer)


# Where the first, second and third null of such a table stand.
FIRST, SECOND, THIRD = found(8, 1), found(14, 1), found(20, 1)


def named(path, name):
    """The path is another way to write this one name."""
    among(path, b"decoy", name, answer=SECOND)


def path_refused(path, number, place):
    """In a table that has an `a`, so that only the path is at fault."""
    among(path, b"a", answer=refused(number, place))


# ---- Document 01's own tables

look_up("07 0000", b"", b"a", refused(16, 0))
look_up("07 0001 08 0000 0001 04 0001 0001", b"a1", b"a", found(8, 5))
look_up("07 0001 08 0000 0001 04 0001 0001", b"a1", b"b", refused(16, 0))
CASE_3 = "07 0002 08 0001 0001 04 0002 0001 08 0003 0001 04 0004 0001"
look_up(CASE_3, b"1a1b1", b"a", found(8, 5))
look_up(CASE_3, b"1a1b1", b"b", found(18, 5))
look_up(CASE_3, b"1a1b1", b"1", refused(16, 0))
look_up(CASE_3, b"1a1b1", b"a.b", refused(16, 0))

# ---- Every kind as a value: {n: null, f: false, t: true, i: 1, s: "x", r: [], o: {}}
KINDS = """07 0007
    08 0000 0001 01
    08 0001 0001 02
    08 0002 0001 03
    08 0003 0001 04 0007 0001
    08 0004 0001 05 0008 0001
    08 0005 0001 06 0000
    08 0006 0001 07 0000"""
look_up(KINDS, b"nftisro1x", b"n", found(8, 1))
look_up(KINDS, b"nftisro1x", b"f", found(14, 1))
look_up(KINDS, b"nftisro1x", b"t", found(20, 1))
look_up(KINDS, b"nftisro1x", b"i", found(26, 5))
look_up(KINDS, b"nftisro1x", b"s", found(36, 5))
look_up(KINDS, b"nftisro1x", b"r", found(46, 3))
look_up(KINDS, b"nftisro1x", b"o", found(54, 3))
look_up(KINDS, b"nftisro1x", b"x", refused(16, 0))
look_up(KINDS, b"nftisro1x", b"o.n", refused(16, 0))

# ---- Members of members: {a: {b: {c: 1}, d: [true, {e: null}]}}
NESTED = """07 0001
    08 0000 0001 07 0002
        08 0001 0001 07 0001
            08 0002 0001 04 0003 0001
        08 0004 0001 06 0002
            03
            07 0001
                08 0005 0001 01"""
look_up(NESTED, b"abc1de", b"a", found(8, 39))
look_up(NESTED, b"abc1de", b"a.b", found(16, 13))
look_up(NESTED, b"abc1de", b"a.b.c", found(24, 5))
look_up(NESTED, b"abc1de", b"a.d", found(34, 13))
look_up(NESTED, b"abc1de", b"b", refused(16, 0))
look_up(NESTED, b"abc1de", b"c", refused(16, 0))
look_up(NESTED, b"abc1de", b"a.c", refused(16, 0))
look_up(NESTED, b"abc1de", b"a.b.c.d", refused(16, 0))
look_up(NESTED, b"abc1de", b"a.d.e", refused(16, 0))  # an array has no names
look_up(NESTED, b"abc1de", b"a.d.1", refused(16, 0))
look_up(NESTED, b"abc1de", b"a.a", refused(16, 0))

# ---- Equal keys answer by the first, with no second try further along the path.
look_up("07 0002 08 0000 0001 02 08 0000 0001 03", b"a", b"a", found(8, 1))
look_up("07 0002 08 0000 0001 02 08 0001 0001 03", b"aa", b"a", found(8, 1))
EQUAL = "07 0002 08 0000 0001 07 0000 08 0000 0001 07 0001 08 0001 0001 01"
look_up(EQUAL, b"ab", b"a", found(8, 3))
look_up(EQUAL, b"ab", b"a.b", refused(16, 0))

# ---- A root that is no object has no names.
for root in ["01", "02", "03", "04 0000 0001", "05 0000 0001", "06 0000", "06 0001 01"]:
    look_up(root, b"a", b"a", refused(16, 0))
look_up("06 0001 07 0001 08 0000 0001 01", b"a", b"a", refused(16, 0))

# ---- 15: not one whole table. Nothing else about the look-up is wrong: the text is `a1`, the path `a`.
for table in [
    "",  # no record at all
    "00", "08 0000 0001", "09 0000 01", "0a 0000", "0b", "ff",  # no kind of a value
    "01 01", "01 00", "04 0000 0001 01", "06 0000 01", "07 0000 01",  # something after it
    "04", "04 00", "04 0000", "04 0000 00", "05 0000 00",  # cut in a simple record
    "04 0000 0003", "05 0001 0002", "05 0002 0001", "05 0003 0000",  # text outside
    "05 0003 ffff", "05 ffff 0001", "05 ffff ffff",
    "06", "06 00", "06 0001", "06 0002 01", "06 0001 05 0000",  # an array cut short
    "06 0001 00", "06 0001 08 0000 0001", "06 0001 0a 0000", "06 0002 08 0000 0001 01",  # an array of other things
    "06 0001 04 0000 0003", "06 0002 01 05 0003 0000", "06 0001 06 0001 05 0002 0001",  # text outside, deeper
    "07", "07 00", "07 0001", "07 0001 08 0000 00", "07 0001 08 0000 0001",  # an object cut short
    "07 0002 08 0000 0001 01", "07 0002 08 0000 0001 01 08 0001 0001", "07 0003 08 0000 0001 01 08 0001 0001 01",
    "07 0001 01", "07 0001 04 0000 0001 01", "07 0001 05 0000 0001 01", "07 0001 09 0000 0001 01",  # no key first
    "07 0002 08 0000 0001 01 01", "07 0002 08 0000 0001 01 05 0000 0001 01",
    "07 0001 08 0000 0001 08 0001 0001", "07 0001 08 0000 0001 00",  # no value after the key
    "07 0001 08 0000 0001 09 0000 01", "07 0001 08 0000 0001 0a 0000", "07 0002 08 0000 0001 08 0000 0001 01",
    "07 0001 08 0000 0003 01", "07 0001 08 0002 0001 01", "07 0001 08 0003 0000 01",  # a key's text outside
    "07 0002 08 0000 0001 01 08 0002 0001 01",  # ... behind the one that is looked for
    "07 0001 08 0000 0001 05 0001 0002", "07 0002 08 0000 0001 01 08 0001 0001 05 0003 0000",
    "07 0002 08 0000 0001 01 08 0001 0001 00", "07 0001 08 0000 0001 06 0001 00",
    "07 0100 08 0000 0001 01", "07 0001 08 0000 0100 01", "07 0001 08 0100 0001 01",  # bytes in the wrong order
    "07 0001 08 0000 0001 01 08 0001 0001 01", "07 0000 08 0000 0001 01",  # a member more than counted
]:
    look_up(table, b"a1", b"a", refused(15, 0))

# A text may end where the text part does, an empty one too.
look_up("07 0001 08 0000 0001 05 0001 0001", b"a1", b"a", found(8, 5))
look_up("07 0001 08 0000 0001 05 0000 0002", b"a1", b"a", found(8, 5))
look_up("07 0001 08 0000 0001 05 0002 0000", b"a1", b"a", found(8, 5))
look_up("07 0001 08 0000 0001 04 0001 0000", b"a1", b"a", found(8, 5))
look_up("07 0001 08 0000 0001 05 0002 0000", b"a", b"a", refused(15, 0))
look_up("07 0001 08 0000 0000 01", b"", b'""', found(8, 1))
look_up("07 0001 08 0001 0000 01", b"", b'""', refused(15, 0))
# Texts may overlap, leave bytes unused, and need not be UTF-8.
look_up("07 0002 08 0001 0002 01 08 0002 0002 02", b"?abc", b"bc", found(14, 1))
look_up("07 0002 08 0000 0001 05 0000 0002 08 0001 0001 05 0000 0003", b"\xffa\xc3", b"a", found(18, 5))
# Counts and offsets of two bytes.
look_up(object_(1) + key(0, 1) + array(300) + 300 * NULL, b"a", b"a", found(8, 303))
look_up(object_(1) + key(0, 1) + array(300) + 299 * NULL, b"a", b"a", refused(15, 0))
look_up(object_(1) + key(0, 1) + array(300) + 301 * NULL, b"a", b"a", refused(15, 0))
look_up(object_(1) + key(256, 1) + NULL, 256 * b"b" + b"a", b"a", found(8, 1))
look_up(object_(1) + key(0, 258) + NULL, 258 * b"a", 258 * b"a", found(8, 1))
look_up(object_(300) + 299 * (key(0, 1) + NULL) + key(1, 1) + NULL, b"ab", b"b", found(1802, 1))

# ---- Nesting: 32 met, and passed by one. Simple values inside count nothing.
look_up(31 * array(1) + array(0), b"", b"a", refused(16, 0))
look_up(32 * array(1) + array(0), b"", b"a", refused(15, 0))
look_up(32 * array(1) + NULL, b"", b"a", refused(16, 0))
look_up(33 * array(1) + NULL, b"", b"a", refused(15, 0))
look_up(object_(1) + key(0, 1) + 31 * array(1) + NULL, b"a", b"a", found(8, 94))
look_up(object_(1) + key(0, 1) + 32 * array(1) + NULL, b"a", b"a", refused(15, 0))
look_up(31 * (object_(1) + key(0, 1)) + object_(0), b"a", b"a.a.a", found(24, 227))
look_up(32 * (object_(1) + key(0, 1)) + object_(0), b"a", b"a.a.a", refused(15, 0))
look_up(object_(2) + key(0, 1) + NULL + key(1, 1) + 31 * array(1) + array(0), b"ab", b"a", refused(15, 0))
THIRTY_ONE = 30 * array(1) + array(0)
look_up(object_(2) + key(0, 1) + THIRTY_ONE + key(1, 1) + THIRTY_ONE, b"ab", b"b", found(106, 93))

# ---- Path elements: 16 met, and passed by one.
SIXTEEN, SEVENTEEN = 16 * (object_(1) + key(0, 1)) + NULL, 17 * (object_(1) + key(0, 1)) + NULL
look_up(SIXTEEN, b"a", b".".join(16 * [b"a"]), found(128, 1))
look_up(SEVENTEEN, b"a", b".".join(16 * [b"a"]), found(128, 9))
look_up(SEVENTEEN, b"a", b".".join(17 * [b"a"]), refused(8, 32))
look_up(SEVENTEEN, b"a", b".".join(18 * [b"a"]), refused(8, 32))
look_up(SIXTEEN, b"a", b".".join(16 * [b'"a"']), found(128, 1))
look_up(SEVENTEEN, b"a", b".".join(17 * [b'"a"']), refused(8, 64))
look_up(SEVENTEEN, b"a", 16 * b"a." + b'"a"', refused(8, 32))
look_up(SEVENTEEN, b"a", 16 * b"a." + b'"""a"""', refused(8, 32))
look_up(SEVENTEEN, b"a", 16 * b"a." + b" a", refused(8, 32))
look_up(SEVENTEEN, b"a", 16 * b"a." + b'""', refused(8, 32))
look_up(SEVENTEEN, b"a", b" \t" + b".".join(17 * [b"a"]) + b" ", refused(8, 34))
look_up(SEVENTEEN, b"a", b".".join(16 * [b"a "]) + b".a", refused(8, 48))
look_up(SEVENTEEN, b"a", b".".join(17 * [b"1"]), refused(8, 32))
look_up(SEVENTEEN, b"a", 15 * b"a." + 990 * b"b" + b".c", refused(8, 1021))
# A dot inside quotes parts nothing.
among(b'"' + 16 * b"a." + b'a"', b"a", 16 * b"a." + b"a", answer=SECOND)
# 7 before 8, wherever it stands; 3, 4 and 5 before both.
path_refused(17 * b"a.", 7, 0)
path_refused(16 * b"a." + b".a", 7, 0)
path_refused(b"." + b".".join(17 * [b"a"]), 7, 0)
path_refused(b".".join(17 * [b"a"]) + b":", 3, 33)
path_refused(b".".join(17 * [b"a"]) + b'"', 4, 34)
path_refused(b".".join(17 * [b"a"]) + b" -", 5, 34)

# ---- Path text: 1,024 bytes met, and passed by one.
among(1024 * b"a", 1023 * b"a", 1024 * b"a", answer=SECOND)
among(1025 * b"a", 1024 * b"a", 1025 * b"a", answer=refused(1, 0))
among(b'"' + 1022 * b"a" + b'"', 1022 * b"a", answer=FIRST)
among(1023 * b" " + b"a", b"a", answer=FIRST)
among(1024 * b" " + b"a", b"a", answer=refused(1, 0))
among(b"a" + 1023 * b" ", b"a", answer=FIRST)
among(b"a" + 1024 * b" ", b"a", answer=refused(1, 0))
path_refused(1024 * b" ", 7, 0)
path_refused(1025 * b" ", 1, 0)
path_refused(1024 * b".", 7, 0)
path_refused(b'"' + 1023 * b"a", 4, 1024)
path_refused(1023 * b"a" + b"+", 3, 1023)
path_refused(1023 * b"a" + b"\xc3", 2, 1023)
path_refused(1022 * b"a" + b"\xff+", 2, 1022)
path_refused(1022 * b"a" + b" -", 5, 1023)

# ---- Lent parts: 32,768 bytes met, and passed by one.
look_up(object_(2) + key(0, 1) + array(32751) + 32751 * NULL + key(1, 1) + NULL, b"ab", b"b", found(32767, 1))
look_up(object_(1) + key(0, 1) + array(32757) + 32757 * NULL, b"a", b"a", found(8, 32760))
look_up(object_(1) + key(0, 1) + array(32758) + 32758 * NULL, b"a", b"a", refused(1, 0))
look_up(object_(1) + key(32767, 1) + NULL, 32767 * b"b" + b"a", b"a", found(8, 1))
look_up(object_(1) + key(32767, 1) + NULL, 32767 * b"b" + b"aa", b"a", refused(1, 0))
# 1 before 15, 15 before all faults of the path.
look_up("", b"", 1025 * b"a", refused(1, 0))
look_up("07 0001 08 0000 0001 01", b"", 1025 * b"\xff", refused(1, 0))
for path in [b"\xff", b"+", b'"', b"-", b"", 17 * b"a.", b".".join(17 * [b"a"]), b"b"]:
    look_up("07 0001 08 0000 0002 01", b"a", path, refused(15, 0))

# ---- 2: ill-formed UTF-8, at the first byte of the first ill-formed sequence.
path_refused(b"\x80", 2, 0)
path_refused(b"a\xbf", 2, 1)
path_refused(b"\xc0\x80", 2, 0)
path_refused(b"\xc1\xbf", 2, 0)
path_refused(b"\xc3", 2, 0)
path_refused(b"\xc3a", 2, 0)
path_refused(b"\xc3\xa9\xc3", 2, 2)
path_refused(b"a\xe0\x80\x80", 2, 1)
path_refused(b"a\xe0\x9f\xbf", 2, 1)
path_refused(b"\xe2\x82", 2, 0)
path_refused(b"\xe2\x82a", 2, 0)
path_refused(b"\xed\xa0\x80", 2, 0)
path_refused(b"\xed\xbf\xbf", 2, 0)
path_refused(b"\xf0\x80\x80\x80", 2, 0)
path_refused(b"\xf0\x8f\xbf\xbf", 2, 0)
path_refused(b"\xf0\x9f\x98", 2, 0)
path_refused(b"\xf0\x9f\x98\x80\xf0\x9f\x98", 2, 4)
path_refused(b"\xf4\x90\x80\x80", 2, 0)
path_refused(b"\xf5\x80\x80\x80", 2, 0)
path_refused(b"\xfe", 2, 0)
path_refused(b"\xff", 2, 0)
# Over the whole path text, before anything else of it; inside quotes too.
path_refused(b"+\xff", 2, 1)
path_refused(b'"\\x\xff', 2, 3)
path_refused(b"..\xff", 2, 2)
path_refused(b'"\xff"', 2, 1)
path_refused(b'"""\xff"""', 2, 3)
path_refused(b'"\x80', 2, 1)

# ---- 3: a byte that a path does not allow.
for special in b"${}[]:=,+#`^?!@*&\\":
    path_refused(bytes([special]), 3, 0)
    path_refused(b"a" + bytes([special]) + b"b", 3, 1)
    path_refused(b'"a" ' + bytes([special]), 3, 4)
path_refused(b"//", 3, 0)
path_refused(b"a//b", 3, 1)
path_refused(b"a///", 3, 1)
path_refused(b"a //", 3, 2)
path_refused(b"\n", 3, 0)
path_refused(b"\na", 3, 0)
path_refused(b"a\n", 3, 1)
path_refused(b" \n", 3, 1)
path_refused(b"a \n", 3, 2)
path_refused(b"a\nb", 3, 1)
path_refused(b"\xc3\xa9+", 3, 2)
path_refused(b"${a}", 3, 0)
path_refused(b"1e+", 3, 2)
path_refused(b"1+1", 3, 1)
path_refused(b"true+", 3, 4)
# Judged where it stands, before the path is judged at its end.
path_refused(b"a..+", 3, 3)
path_refused(b".\n", 3, 1)
path_refused(b'+"', 3, 0)
path_refused(b"+-", 3, 0)
path_refused(b"-+", 5, 0)

# ---- 4: the end inside something open, at the length.
path_refused(b'"', 4, 1)
path_refused(b'a."b', 4, 4)
path_refused(b'"\xc3\xa9', 4, 3)
path_refused(b'"a\\', 4, 3)
path_refused(b'"a\\"', 4, 4)
path_refused(b'"\\u', 4, 3)
path_refused(b'"\\u006', 4, 6)
path_refused(b'"\\u0061', 4, 7)
path_refused(b'"\\ud800', 4, 7)
path_refused(b'"\\ud800\\', 4, 8)
path_refused(b'"\\ud800\\u', 4, 9)
path_refused(b'"\\ud800\\ud8', 4, 11)
path_refused(b'"\\ud800\\udc0', 4, 12)
path_refused(b'"\\ud800\\udc00', 4, 13)
path_refused(b'"\\ud800\\u006', 4, 12)
path_refused(b'"""', 4, 3)
path_refused(b'""""', 4, 4)
path_refused(b'"""""', 4, 5)
path_refused(b'"""a', 4, 4)
path_refused(b'"""a"', 4, 5)
path_refused(b'"""a""', 4, 6)
path_refused(b'"""a""b"', 4, 8)
path_refused(b'"""""a', 4, 6)
path_refused(b'"a"""""b"', 4, 9)
path_refused(b'"""a""""b"', 4, 10)
path_refused(b'.."', 4, 3)

# ---- 5: a minus sign that starts no number; a bad escape, a lone surrogate, a control byte in a quoted string.
path_refused(b"-", 5, 0)
path_refused(b" -", 5, 1)
path_refused(b"-a", 5, 0)
path_refused(b"--1", 5, 0)
path_refused(b"-.5", 5, 0)
path_refused(b"- 1", 5, 0)
path_refused(b"-true", 5, 0)
path_refused(b'-"1"', 5, 0)
path_refused(b"a -b", 5, 2)
path_refused(b"a -", 5, 2)
path_refused(b'"a"-', 5, 3)
path_refused(b'"""a"""-b', 5, 7)
path_refused(b"1-", 5, 1)
path_refused(b"1-a", 5, 1)
path_refused(b"1-1-", 5, 3)
path_refused(b"true-", 5, 4)
path_refused(b"false-x", 5, 5)
path_refused(b"null-x", 5, 4)
path_refused(b".. -", 5, 3)
path_refused(b'"\\x"', 5, 1)
path_refused(b'"a\\x', 5, 2)
path_refused(b'"\\\'"', 5, 1)
path_refused(b'"\\0"', 5, 1)
path_refused(b'"\\U0061"', 5, 1)
path_refused(b'"\\\n"', 5, 1)
path_refused(b'"\\\x01"', 5, 1)
path_refused(b'"\\\xc3\xa9"', 5, 1)
path_refused(b'"\\ug', 5, 1)
path_refused(b'"\\u"', 5, 1)
path_refused(b'"\\u006"', 5, 1)
path_refused(b'"\\u006g"', 5, 1)
path_refused(b'"\\u+061"', 5, 1)
path_refused(b'"a\\u00:0"', 5, 2)
path_refused(b'"a\\u00@0"', 5, 2)
path_refused(b'"a\\u00`0"', 5, 2)
path_refused(b'"\\udc00"', 5, 1)
path_refused(b'"\\udc00', 5, 1)
path_refused(b'"\\udfff"', 5, 1)
path_refused(b'"\\ud800"', 5, 1)
path_refused(b'"\\udbff"', 5, 1)
path_refused(b'"\\ud800a"', 5, 1)
path_refused(b'"\\ud800 \\udc00"', 5, 1)
path_refused(b'"\\ud800\\n"', 5, 1)
path_refused(b'"\\ud800\\\\udc00"', 5, 1)
path_refused(b'"\\ud800\\x"', 5, 1)
path_refused(b'"\\ud800\\uz', 5, 1)
path_refused(b'"a\\ud800\\u0061"', 5, 2)
path_refused(b'"\\ud800\\ud800\\udc00"', 5, 1)
path_refused(b'"\\ud800\\udbff"', 5, 1)
path_refused(b'"\\ud800\\ue000"', 5, 1)
path_refused(b'"\\ud83d\\ude00\\ude00"', 5, 13)
path_refused(b'"\x00"', 5, 1)
path_refused(b'"a\n"', 5, 2)
path_refused(b'"a\t"', 5, 2)
path_refused(b'"a\x1f', 5, 2)

# ---- 7: an empty path, or an empty element without quotes. Outer spaces are dropped first.
for path in [
    b"", b" ", b"\t\x0b\x0c\r\x1c\x1d\x1e\x1f ",
    b".", b"..", b"a.", b".a", b"a..b", b"a.b.", b" .a", b"a. ", b" . ", b'.""', b'""..""', b"1.", b"..-",
]:
    path_refused(path, 7, 0)

# ---- 16, and nothing but it
path_refused(b"b", 16, 0)
path_refused(b"A", 16, 0)
path_refused(b"aa", 16, 0)
path_refused(b"a.a", 16, 0)
path_refused(b'""', 16, 0)
path_refused(b'" a"', 16, 0)
path_refused(b'a" "', 16, 0)
path_refused(b'"" a', 16, 0)
path_refused(b'a. ""', 16, 0)
path_refused(b'"a."', 16, 0)
path_refused(b"a\x00", 16, 0)
path_refused(b"\x08a", 16, 0)
path_refused(b"a\x0e", 16, 0)
path_refused(b"a\x1b", 16, 0)
path_refused(b"a\x7f", 16, 0)
path_refused(b"\xe2\x80\x8ba", 16, 0)
path_refused(b"a\xc2\x85", 16, 0)
path_refused(b'"\xc2\xa0a"', 16, 0)
path_refused(b'""\xc2\xa0a', 16, 0)
among(b"e\xcc\x81", b"\xc3\xa9", answer=refused(16, 0))
among(b"a", b"ab", answer=refused(16, 0))
among(b"ab", b"a", b"b", answer=refused(16, 0))

# ---- One name, written in many ways
for path in [
    b"a", b" a", b"a ", b"\t\x0b\x0c\r\x1c\x1d\x1e\x1f a \x1f",
    b'"a"', b'"""a"""', b'"\\u0061"', b'""a', b'a""', b'""a""', b'""""""a', b'a""""""',
]:
    named(path, b"a")
for path in [b"ab", b'a"b"', b'"a"b', b'"a""b"', b'"""a"""b', b'a"""b"""', b'"\\u0061b"', b'"a\\u0062"']:
    named(path, b"ab")
for path in [
    b"a b", b'"a b"', b'a" "b', b'a" b"', b'"a" b', b'"a" "b"', b'a "b"', b'a ""b', b'"""a""" b', b'a """b"""',
]:
    named(path, b"a b")
named(b"a  b", b"a  b")
named(b"a \t\x1c b", b"a \t\x1c b")
named(b' "" ', b"")
named(b'""', b"")
named(b'""""""', b"")
named(b'"\\""', b'"')
named(b'"""""""', b'"')
named(b'""""""""', b'""')
named(b'"""a""""', b'a"')
named(b'""""a"""', b'"a')
named(b'"""a""b"""', b'a""b')
named(b'"""a\nb"""', b"a\nb")
named(b'"""a\\nb\\"""', b"a\\nb\\")
named(b'"a\\nb"', b"a\nb")
named(b'"a.b"', b"a.b")
named(b'"a"".b"', b"a.b")
named(b'"""a.b"""', b"a.b")
named(b'"#${}[]:=,+`^?!@*&//"', b"#${}[]:=,+`^?!@*&//")
named(b'"\\"\\\\\\/\\b\\f\\n\\r\\t"', b'"\\/\x08\x0c\n\r\t')
named(b'"\x7f"', b"\x7f")
named(b'"\\u0000"', b"\x00")
named(b"\x00", b"\x00")
named(b"\x01\x08\x0e\x1b\x7f", b"\x01\x08\x0e\x1b\x7f")
named(b"'|;<>~%()_", b"'|;<>~%()_")
named(b"/", b"/")
named(b"a/b/", b"a/b/")
named(b"a/ /b", b"a/ /b")
named(b"\xc3\xa9", b"\xc3\xa9")
named(b'"\\u00e9\\u00E9"', b"\xc3\xa9\xc3\xa9")
named(b'"\\u007f\\u0080\\u07ff\\u0800"', b"\x7f\xc2\x80\xdf\xbf\xe0\xa0\x80")
named(b'"\\ud7ff\\ue000\\uffff"', b"\xed\x9f\xbf\xee\x80\x80\xef\xbf\xbf")
named(b'"\\ud800\\udc00"', b"\xf0\x90\x80\x80")
named(b'"\\ud83d\\ude00"', b"\xf0\x9f\x98\x80")
named(b'"\\uDBFF\\uDFFF"', b"\xf4\x8f\xbf\xbf")
named(b"\xf0\x9f\x98\x80", b"\xf0\x9f\x98\x80")
named(b"\xc2\x80\xdf\xbf\xe0\xa0\x80\xed\x9f\xbf\xee\x80\x80\xef\xbf\xbf\xf0\x90\x80\x80\xf4\x8f\xbf\xbf",
      b"\xc2\x80\xdf\xbf\xe0\xa0\x80\xed\x9f\xbf\xee\x80\x80\xef\xbf\xbf\xf0\x90\x80\x80\xf4\x8f\xbf\xbf")
# Whitespace of several bytes: Unicode 15's categories Zs, Zl and Zp, and U+FEFF. Around a path it is dropped, inside kept.
WIDE_SPACES = [
    b"\xc2\xa0", b"\xe1\x9a\x80",
    b"\xe2\x80\x80", b"\xe2\x80\x81", b"\xe2\x80\x82", b"\xe2\x80\x83", b"\xe2\x80\x84", b"\xe2\x80\x85",
    b"\xe2\x80\x86", b"\xe2\x80\x87", b"\xe2\x80\x88", b"\xe2\x80\x89", b"\xe2\x80\x8a",
    b"\xe2\x80\xa8", b"\xe2\x80\xa9", b"\xe2\x80\xaf", b"\xe2\x81\x9f", b"\xe3\x80\x80", b"\xef\xbb\xbf",
]
for space in WIDE_SPACES:
    size = len(space)
    for path in [space + b"a", b"a" + space, space + b" " + space + b"a" + 2 * space, space + b'"a"' + space]:
        named(path, b"a")
    for name in [b"a" + space + b"b", b"a " + space + b"b", b"1" + space + b"2", b"true" + space + b"x", b"x" + space + b"/"]:
        named(name, name)
        named(space + name + space, name)
        named(b'"' + name + b'"', name)
    for path in [b'"a"' + space + b"b", b"a" + space + b'"b"', b'a"' + space + b'"b', b'"""a' + space + b'b"""']:
        named(path, b"a" + space + b"b")
    named(b'"' + space + b'"', space)
    named(b'""' + space + b'""', space)
    named(b"/" + space + b"/", b"/" + space + b"/")
    path_refused(space, 7, 0)
    path_refused(space + b".a", 7, 0)
    path_refused(b"a." + space, 7, 0)
    path_refused(space + b"#", 3, size)
    path_refused(space + b"a" + space + b"\n", 3, 1 + 2 * size)
    path_refused(space + b"a" + space + b"+", 3, 1 + 2 * size)
    path_refused(space + b'"a', 4, 2 + size)
    path_refused(space + b"-" + space, 5, size)
    path_refused(space + space[:-1], 2, size)
    path_refused(space + b".".join(17 * [b"a"]), 8, size + 32)
    # The limit of 1,024 bytes counts it.
    named((1024 - 1) // size * space + b"a" + (1024 - 1) % size * b" ", b"a")
    path_refused(1024 // size * space + b"a" + 1024 % size * b" ", 1, 0)
for ordinary in [
    b"\xc2\x85", b"\xc2\x9f", b"\xc2\xa1", b"\xe1\x99\xbf", b"\xe1\x9a\x81", b"\xe1\xa0\x8e", b"\xe2\x80\x8b", b"\xe2\x80\x8c",
    b"\xe2\x80\x8d", b"\xe2\x80\xa7", b"\xe2\x80\xaa", b"\xe2\x80\xae", b"\xe2\x80\xb0", b"\xe2\x81\x9e", b"\xe2\x81\xa0",
    b"\xe2\xbf\xbf", b"\xe3\x80\x81", b"\xef\xbb\xbe", b"\xef\xbc\x80", b"\xf0\xa0\x80\x80",
]:
    named(ordinary, ordinary)
    named(ordinary + b"a" + ordinary, ordinary + b"a" + ordinary)
# Words and numbers are text here, whatever pieces they are.
for path in [
    b"true", b"false", b"null", b"truefalse", b"truex", b"xtrue", b"tru", b"include",
    b"0", b"10", b"01", b"-5", b"-0", b"-01", b"1e5", b"1e+5", b"1E-5", b"1e", b"1ex-", b"1a",
    b"2020-01-01", b"a-b", b"a-", b"a -1", b"true-1", b"-1-1", b"5 6",
]:
    named(path, path)
named(b'-1"a"', b"-1a")
among(b"true", b"truex", b"tru", b"true", answer=THIRD)
# Keys that are no UTF-8 are passed over.
among(b"a", b"\xff", b"\xc3", b"a", answer=THIRD)

# ---- Several names: {x: {y: null}} with these two names
for path, x, y in [
    (b"a.b", b"a", b"b"),
    (b"a . b", b"a ", b" b"),
    (b" a.b ", b"a", b"b"),
    (b'"a".b', b"a", b"b"),
    (b'"a" .b', b"a ", b"b"),
    (b'a. "b" ', b"a", b" b"),
    (b'a."b.c"', b"a", b"b.c"),
    (b'"a.b".c', b"a.b", b"c"),
    (b'"a.b""."c.d', b"a.b.c", b"d"),
    (b'a.""', b"a", b""),
    (b'"".a', b"", b"a"),
    (b'"".""', b"", b""),
    (b'"""""".""""""', b"", b""),
    (b'a.""b', b"a", b"b"),
    (b"a.b c", b"a", b"b c"),
    (b"1.5", b"1", b"5"),
    (b"-1.5e3", b"-1", b"5e3"),
    (b"1.x", b"1", b"x"),
    (b"1.-", b"1", b"-"),
    (b"a.-1", b"a", b"-1"),
    (b"true.false", b"true", b"false"),
    (b"include.x", b"include", b"x"),
    (b"\xc3\xa9.\xf0\x9f\x98\x80", b"\xc3\xa9", b"\xf0\x9f\x98\x80"),
    *[(space + b"a" + space + b"." + space + b"b" + space, b"a" + space, space + b"b") for space in WIDE_SPACES],
]:
    table = object_(1) + key(0, len(x)) + object_(1) + key(len(x), len(y)) + NULL
    look_up(table, x + y, path, found(16, 1))
SPACES = object_(1) + key(0, 1) + object_(1) + key(1, 1) + object_(1) + key(2, 1) + NULL
look_up(SPACES, b"a b", b"a. .b", found(24, 1))
look_up(SPACES, b"a b", b'a." ".b', found(24, 1))
EMPTY = object_(1) + key(0, 1) + object_(1) + key(1, 0) + object_(1) + key(1, 1) + NULL
look_up(EMPTY, b"ab", b'a."".b', found(24, 1))
look_up(EMPTY, b"ab", b"a..b", refused(7, 0))


def main():
    folder = pathlib.Path(__file__).parents[2] / "crates" / "test_look_up"
    vectors, answers = bytearray(), []
    for table, text, path, answer in VECTORS:
        for part in (table, text, path):
            vectors += len(part).to_bytes(4, "big") + part
        number, place, start, size = answer
        kind = table[start] if number == 0 else 0
        answers.append(f"{number} {place} {start} {size} {kind} {size}\n")
    (folder / "stdin").write_bytes(vectors)
    (folder / "stdout").write_text("".join(answers))


if __name__ == "__main__":
    main()
