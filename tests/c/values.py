#!/usr/bin/env python3
"""Calls every function of the headers in the shared library, as another language does. values.py LIBRARY HEADER.."""
import ctypes
import re
import sys
from ctypes import POINTER, Structure, byref, c_bool, c_char_p, c_int, c_int64, c_size_t, c_uint32, c_uint64, c_uint8, c_void_p

BYTES, RECORD, ANSWER = c_void_p, c_void_p, c_uint64


class Sheet(Structure):
    _fields_ = [("trail", BYTES), ("table", BYTES), ("text", BYTES),
                ("trail_length", c_size_t), ("table_length", c_size_t), ("text_length", c_size_t)]


SHEET = POINTER(Sheet)
LENT = [BYTES, c_size_t]
FUNCTIONS = {
    "dz_version_number": (c_uint32, []),
    "dz_version": (c_char_p, []),
    "dz_number": (c_int, [ANSWER]),
    "dz_place": (c_size_t, [ANSWER]),
    "dz_document": (c_size_t, [ANSWER]),
    "dz_line": (c_size_t, [ANSWER]),
    "dz_column": (c_size_t, [ANSWER]),
    "dz_words": (c_char_p, [c_int]),
    "dz_kind": (c_int, [RECORD]),
    "dz_text_offset": (c_size_t, [RECORD]),
    "dz_text_length": (c_size_t, [RECORD]),
    "dz_member_count": (c_size_t, [RECORD]),
    "dz_record_length": (c_size_t, [RECORD]),
    "dz_entry_number": (c_size_t, [RECORD]),
    "dz_has_text": (c_bool, [RECORD]),
    "dz_first": (RECORD, [RECORD]),
    "dz_next": (RECORD, [RECORD]),
    "dz_key": (RECORD, [RECORD]),
    "dz_value": (RECORD, [RECORD]),
    "dz_resolve": (ANSWER, LENT * 2 + [c_uint64] + LENT * 3),
    "dz_resolve_count": (c_size_t, [ANSWER]),
    "dz_resolve_trail_length": (c_size_t, [ANSWER]),
    "dz_resolve_table_length": (c_size_t, [ANSWER]),
    "dz_resolve_text_length": (c_size_t, [ANSWER]),
    "dz_check": (ANSWER, LENT * 5),
    "dz_check_accepted": (c_bool, [ANSWER]),
    "dz_look_up": (ANSWER, LENT * 3),
    "dz_look_up_number": (c_int, [ANSWER]),
    "dz_look_up_found": (c_bool, [ANSWER]),
    "dz_look_up_offset": (c_size_t, [ANSWER]),
    "dz_look_up_length": (c_size_t, [ANSWER]),
    "dz_look_up_place": (c_size_t, [ANSWER]),
    "dz_length": (ANSWER, LENT * 2),
    "dz_length_number": (c_int, [ANSWER]),
    "dz_length_micrometres": (c_uint32, [ANSWER]),
    "dz_profile": (ANSWER, LENT * 2),
    "dz_profile_number": (c_int, [ANSWER]),
    "dz_profile_edition": (c_int, [ANSWER]),
    "dz_profile_minimum": (c_uint32, [ANSWER]),
    "dz_profile_maximum": (c_uint32, [ANSWER]),
    "dz_resolve_sheet": (Sheet, [ANSWER, BYTES, BYTES, BYTES]),
    "dz_sheet_look_up": (ANSWER, [SHEET, c_char_p]),
    "dz_find": (RECORD, [SHEET, c_char_p]),
    "dz_find_length": (ANSWER, [SHEET, c_char_p]),
    "dz_sheet_profile": (ANSWER, [SHEET]),
    "dz_root": (RECORD, [SHEET]),
    "dz_text": (c_void_p, [SHEET, RECORD]),
    "dz_text_equals": (c_bool, [SHEET, RECORD, c_char_p]),
    "dz_integer": (c_int, [SHEET, RECORD, POINTER(c_int64)]),
    "dz_sheet_begins": (c_bool, LENT),
    "dz_sheet_open": (c_bool, LENT + [SHEET]),
    "dz_sheet_head": (None, [POINTER(c_uint8), c_size_t, c_size_t, c_size_t]),
}

called = set()
wrong = 0


def hold(got, stated, what):
    global wrong
    if got != stated:
        print(f"wrong: {what}: {got!r} and not {stated!r}")
        wrong += 1


def load(path):
    """The library, each of its functions with its types and noted when it is called."""
    library = ctypes.CDLL(path)

    class Calls:
        pass

    def bind(name, result, arguments):
        function = getattr(library, name)
        function.restype, function.argtypes = result, arguments

        def call(*values):
            called.add(name)
            return function(*values)
        return call

    for name, (result, arguments) in FUNCTIONS.items():
        setattr(Calls, name, staticmethod(bind(name, result, arguments)))
    return Calls


def functions_of(header):
    """The names of the functions that a header defines or declares."""
    with open(header, encoding="utf-8") as file:
        return set(re.findall(r"^(?:DZ_INLINE |)[a-z][a-z0-9_ ]*[ *](dz_[a-z_]+)\(", file.read(), re.M))


def version_of(headers):
    """The version that the headers state, as number and text."""
    text = "".join(open(header, encoding="utf-8").read() for header in headers)
    number, = re.findall(r"^#define DZINTRULO_VERSION_NUMBER (\d+)$", text, re.M)
    words, = re.findall(r'^#define DZINTRULO_VERSION "([^"]+)"$', text, re.M)
    return int(number), words.encode()


def texts(dz, sheet, value):
    """A value as Python has it: texts as they are written."""
    kind = dz.dz_kind(value)
    if dz.dz_has_text(value):
        return ctypes.string_at(dz.dz_text(sheet, value), dz.dz_text_length(value)).decode()
    found, end, member = [], dz.dz_next(value), dz.dz_first(value)
    while member != end:
        key = dz.dz_key(member)
        item = texts(dz, sheet, dz.dz_value(member))
        found.append(item if key is None else (texts(dz, sheet, key), item))
        member = dz.dz_next(member)
    hold(len(found), dz.dz_member_count(value) if kind in (6, 7) else 0, "count of members")
    return found if kind in (6, 7) else kind


def main():
    dz = load(sys.argv[1])
    names = set().union(*map(functions_of, sys.argv[2:]))
    hold(names, set(FUNCTIONS), "the functions of the headers")
    hold((dz.dz_version_number(), dz.dz_version()), version_of(sys.argv[2:]), "the version")
    document = b"profile=2,mm=mm,plate{min=2.6 ${mm},max=3 mm,n=-17,big=9223372036854775808},list=[true,${?x}1]"
    parts = [(c_uint8 * 32768)() for _ in range(3)]
    lent = [(bytes(document), len(document)), (None, 0)]

    def flat(pairs):
        return [word for pair in pairs for word in pair]

    answer = dz.dz_resolve(*flat(lent), 256, *flat((part, 32768) for part in parts))
    hold((dz.dz_number(answer), dz.dz_place(answer), dz.dz_words(0)), (0, 0, b"ok"), "resolve")
    sheet = dz.dz_resolve_sheet(answer, *parts)
    lengths = dz.dz_resolve_trail_length(answer), dz.dz_resolve_table_length(answer), dz.dz_resolve_text_length(answer)
    hold((sheet.trail_length, sheet.table_length, sheet.text_length), lengths, "the sheet's lengths")
    hold(dz.dz_resolve_count(answer), 2, "count")
    hold(dz.dz_entry_number(dz.dz_next(sheet.trail)), 1, "an entry's number")
    sheet_parts = list(zip((sheet.trail, sheet.table, sheet.text), lengths))
    hold(dz.dz_check_accepted(dz.dz_check(*flat(lent), *flat(sheet_parts))), True, "check")

    refused = dz.dz_check("a=1\né=}".encode(), 8, None, 0, *flat(sheet_parts))
    where = dz.dz_number(refused), dz.dz_document(refused), dz.dz_place(refused), dz.dz_line(refused), dz.dz_column(refused)
    hold(where, (3, 0, 7, 2, 3), "where a refusal is")

    at, root = byref(sheet), dz.dz_root(byref(sheet))
    hold(root, sheet.table, "the root")
    hold(texts(dz, at, root), [("profile", "2"), ("mm", "mm"),
                               ("plate", [("min", "2.6 mm"), ("max", "3 mm"), ("n", "-17"), ("big", "9223372036854775808")]),
                               ("list", [3, "1"])], "all settings")
    found = dz.dz_look_up(*flat(sheet_parts[1:]), b"plate.min", 9)
    hold(dz.dz_sheet_look_up(at, b"plate.min"), found, "look-up")
    hold((dz.dz_look_up_found(found), dz.dz_look_up_number(found), dz.dz_look_up_place(found)), (True, 0, 0), "found")
    value = dz.dz_find(at, b"plate.min")
    hold(value, sheet.table + dz.dz_look_up_offset(found), "a value by its path")
    hold(dz.dz_look_up_length(found), dz.dz_record_length(value), "its length")
    hold(dz.dz_text(at, value), sheet.text + dz.dz_text_offset(value), "its text")
    hold((dz.dz_text_equals(at, value, b"2.6 mm"), dz.dz_text_equals(at, value, b"2.6")), (True, False), "texts compared")
    hold((dz.dz_find(at, b"plate.mid"), dz.dz_number(dz.dz_find_length(at, b"plate.mid"))), (None, 16), "not found")
    length = dz.dz_find_length(at, b"plate.min")
    hold((dz.dz_length_number(length), dz.dz_length_micrometres(length)), (0, 2600), "a length")
    hold(dz.dz_length(value, 5, *sheet_parts[2]), length, "the same length")
    profile = dz.dz_sheet_profile(at)
    hold((dz.dz_profile_number(profile), dz.dz_profile_edition(profile)), (0, 2), "a profile")
    hold((dz.dz_profile_minimum(profile), dz.dz_profile_maximum(profile)), (26000, 30000), "its limits")
    hold(dz.dz_profile(*flat(sheet_parts[1:])), profile, "the same profile")
    number = c_int64(7)
    hold([dz.dz_integer(at, dz.dz_find(at, path), byref(number)) for path in (b"mm", b"plate.big", b"none")], [1, 2, 1], "no integer")
    hold((number.value, dz.dz_integer(at, dz.dz_find(at, b"plate.n"), byref(number)), number.value), (7, 0, -17), "an integer")

    head = (c_uint8 * 12)()
    dz.dz_sheet_head(head, *lengths)
    file = bytes(head) + b"".join(ctypes.string_at(*part) for part in sheet_parts)
    opened = Sheet()
    hold((dz.dz_sheet_begins(file, len(file)), dz.dz_sheet_open(file, len(file), byref(opened))), (True, True), "a sheet file")
    hold(opened.text_length, lengths[2], "its text")
    hold(set(FUNCTIONS) - called, set(), "functions that were not called")
    if wrong:
        sys.exit(f"{wrong} things are wrong")
    print(f"c: {len(called)} functions of the shared library by Python")


main()
