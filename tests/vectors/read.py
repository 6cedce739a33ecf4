#!/usr/bin/env python3
r"""Writes the vectors of the reader: stdin and stdout of the program crates/test_read.

Each vector is written from document 01 by hand, its answer too: number and place of a refusal, or how many items and
unresolved values the document has. The plain reader beside this script has to give the same answers, and the items of
small documents are its own; of a few documents they are written by hand as well.

    stdin   the vectors one after another, to the end of the file. A vector is its document and its environment; each of
            the two is a length of 4 bytes, high byte first, and then so many bytes.
    stdout  for each vector a line 'number place' in decimal where it is refused; else a line '0 items unresolved' and,
            where the document has at most 64 bytes, a line for the root and for each item, 'kind size key text place
            number': the texts in hexadecimal, an empty one as '-'. The key of a piece is the whitespace before it; the
            texts of a simple value's pieces are '-', as the value has them joined. The text of a substitution is
            that of its path's elements, and behind it where each of them ends, 2 bytes, high byte first.
"""

import pathlib

import plain_reader

VECTORS = []
TREES = {}


def refused(document, number, place, environment=b""):
    VECTORS.append((document, environment, (number, place)))


def accepted(document, items, unresolved=0, environment=b""):
    VECTORS.append((document, environment, (0, items, unresolved)))


def tree(document, unresolved, *lines):
    """The items written by hand: the root's line first, which counts as no item."""
    accepted(document, len(lines) - 1, unresolved)
    TREES[document, b""] = list(lines)


def refused_each(number, place, *documents):
    for document in documents:
        refused(document, number, place)


def accepted_each(items, unresolved, *documents):
    for document in documents:
        accepted(document, items, unresolved)


def dotted(count):
    return b".".join(count * [b"a"])


# ---- Document 01's own cases
tree(b"", 0, "7 1 - - 0 0")
tree(b"a=1", 0, "7 3 - - 0 0", "4 2 61 31 0 0", "20 1 - - 2 0")
accepted(b"a=1,b=${a}", 4, 1)
refused(b"[1,,2]", 3, 3)
accepted(b"foo:{a:{c:1}},foo:${foo.a},foo:{a:2}", 12, 1)
accepted(b"a=[${a}]", 4, 1)
accepted(b"a=${a}", 2, 1)
accepted(b"a=${?a}foo", 3, 1)
accepted(b"bar=${foo},foo=${bar}", 4, 2)
accepted(b"a=${x},a=1", 4, 1)
refused(b"a=[1] 5", 11, 6)

# ---- Items by hand
tree(b"[]", 0, "6 1 - - 0 0")
tree(b" \n{}", 0, "7 1 - - 0 0")
tree(b" ab : null", 0, "7 3 - - 0 0", "1 2 6162 6e756c6c 1 0", "17 1 - - 6 0")
tree(
    b"[false,true]", 0,
    "6 5 - - 0 0",
    "2 2 - 66616c7365 1 0", "18 1 - - 1 0",
    "3 2 - 74727565 7 0", "19 1 - - 7 0",
)
tree(
    b'"k\\n"=" x\\u00e9"', 0,
    "7 3 - - 0 0",
    "5 2 6b0a 2078c3a9 0 0", "21 1 - - 6 0",
)
tree(b'""=""', 0, "7 3 - - 0 0", "5 2 - - 0 0", "21 1 - - 3 0")
# Several simple pieces are a string, the whitespace between them kept.
tree(
    b"a=x  1\ttrue ", 0,
    "7 5 - - 0 0",
    "5 4 61 782020310974727565 0 0", "21 1 - - 2 0", "20 1 - - 5 0", "19 1 - - 7 0",
)
tree(b"a=1.50e+2", 0, "7 3 - - 0 0", "4 2 61 312e3530652b32 0 0", "20 1 - - 2 0")
# `a.b = 1` means `a { b = 1 }`, but the implied literal is no piece.
tree(b"a.b=1", 0, "7 4 - - 0 0", "7 3 61 - 0 0", "4 2 62 31 2 0", "20 1 - - 4 0")
tree(b"a{b=1}", 0, "7 5 - - 0 0", "7 4 61 - 0 0", "23 3 - - 1 0", "4 2 62 31 2 0", "20 1 - - 4 0")
# Spaces beside a dot belong to the elements, and an element's first byte is the one after the dot.
tree(b"a . b=1", 0, "7 4 - - 0 0", "7 3 6120 - 0 0", "4 2 2062 31 3 0", "20 1 - - 6 0")
tree(
    b'a."b.c" d . "" =1', 0,
    "7 5 - - 0 0",
    "7 4 61 - 0 0", "7 3 622e63206420 - 2 0", "4 2 20 31 11 0", "20 1 - - 16 0",
)
# Arrays that are joined, objects that are one literal: their pieces stay.
tree(
    b"a=[1] [2]", 0,
    "7 8 - - 0 0",
    "6 7 61 - 0 0",
    "22 3 - - 2 0", "4 2 - 31 3 0", "20 1 - - 3 0",
    "22 3 20 - 6 0", "4 2 - 32 7 0", "20 1 - - 7 0",
)
tree(
    b"a={b=1}\t{c=2}{}", 0,
    "7 9 - - 0 0",
    "7 8 61 - 0 0",
    "23 3 - - 2 0", "4 2 62 31 3 0", "20 1 - - 5 0",
    "23 3 09 - 8 0", "4 2 63 32 9 0", "20 1 - - 11 0",
    "23 1 - - 13 0",
)
# Unresolved values, numbered by first byte: the outer one before those inside it.
tree(b"a=${b}", 1, "7 3 - - 0 0", "8 2 61 - 0 0", "25 1 - 620001 2 1")
tree(b"a=${? b.c }", 1, "7 3 - - 0 0", "8 2 61 - 0 0", "26 1 - 626300010002 2 2")
# Where the elements of a path end is in its text.
tree(b"a=${a.bc}", 1, "7 3 - - 0 0", "8 2 61 - 0 0", "25 1 - 61626300010003 2 2")
tree(b"a=${ab.c}", 1, "7 3 - - 0 0", "8 2 61 - 0 0", "25 1 - 61626300020003 2 2")
tree(b'a=${""}', 1, "7 3 - - 0 0", "8 2 61 - 0 0", "25 1 - 0000 2 1")
tree(b'a=${"".b.""}', 1, "7 3 - - 0 0", "8 2 61 - 0 0", "25 1 - 62000000010001 2 3")
tree(
    b"a=x ${b} 1", 1,
    "7 5 - - 0 0",
    "8 4 61 - 0 0", "21 1 - 78 2 0", "25 1 20 620001 4 1", "20 1 20 31 9 0",
)
tree(
    b"a=[${x}]${y},b=${z}", 3,
    "7 8 - - 0 0",
    "8 5 61 - 0 0", "22 3 - - 2 0", "8 2 - - 3 1", "25 1 - 780001 3 1", "25 1 - 790001 8 1",
    "8 2 62 - 13 2", "25 1 - 7a0001 15 1",
)
tree(
    b"a.b={c=${x}}", 1,
    "7 6 - - 0 0",
    "7 5 61 - 0 0", "7 4 62 - 2 0", "23 3 - - 4 0", "8 2 63 - 5 0", "25 1 - 780001 7 1",
)
# A simple value inside a piece of an unresolved one.
tree(
    b"a=${x}{b=1 2}", 1,
    "7 7 - - 0 0",
    "8 6 61 - 0 0", "25 1 - 780001 2 1", "23 4 - - 6 0", "5 3 62 312032 7 0", "20 1 - - 9 0", "20 1 - - 11 0",
)

# ---- The order of judgements
# A `$` without `{` starts no piece: the value so far is judged first, and nothing is counted.
refused(b"a=[1] 5 $x", 11, 6)
refused(b"a=[1] 5 $", 11, 6)
refused(b"a=[1] $x", 3, 6)
refused(b"a=1 $x", 3, 4)
refused(b"a=1$", 3, 3)
refused(b"a=$", 3, 2)
refused(b"a=$x", 3, 2)
refused(b"a=$ {x}", 3, 2)
refused(b"a=$$", 3, 2)
refused(b"[$", 3, 1)
refused(b"[1 $]", 3, 3)
# A `-` starts a piece, so it is read before the value is judged.
refused(b"a=[1] 5 -x", 5, 8)
refused(b"a=[1] 5 -", 5, 8)
accepted(b"a=[1] ${x} -1", 6, 1)
refused(b"a=[1] 5 -1", 11, 6)
# 6 is for keys alone, and goes by the key's first piece.
accepted(b"a=${include}", 2, 1)
accepted(b"a=include", 2)
accepted(b"[include]", 2)
refused(b'include"s"=1', 6, 0)
refused_each(
    6, 0,
    b"include", b"include=1", b"include 5", b"include.x=1", b"include.=1", b"include..", b"include{", b"include$",
    b"include+", b'include "foo.conf"', b"include url(x)", b"include//", b"include.\"x", b"include\n", b"include:1",
)
refused(b" include=1", 6, 1)
refused(b"{include=1}", 6, 1)
refused(b"a=1,include=1", 6, 4)
refused(b"a={b=1\ninclude x}", 6, 7)
refused(b"[{include x}]", 6, 2)
accepted_each(
    2, 0, b'"include"=1', b"includes=1", b"include-x=1", b"xinclude=1", b"Include=1", b'"""include"""=1',
    b"a include=1",
)
accepted_each(3, 0, b"a.include=1", b'"include".x=1', b'""include.x=1')
accepted(b"1include=1", 2)
accepted(b"trueinclude=1", 2)
# Surrogates: the mate is read as an escape; the end inside it is 4, a wrong byte 5 at the first escape.
refused(b'a="\\ud800\\ud8', 4, 13)
refused(b'a="\\ud800\\uz', 5, 3)
refused(b'a="\\ud800\\x"', 5, 3)
refused(b'a="\\ug', 5, 3)
refused(b'a="\\ud800', 4, 9)
refused(b'a="\\ud800\\', 4, 10)
refused(b'a="\\ud800\\u', 4, 11)
refused(b'a="\\ud800\\udc0', 4, 14)
refused(b'a="\\ud800\\u006', 4, 14)
refused(b'a="\\ud800\\udc00', 4, 15)
refused(b'a="\\ud800"', 5, 3)
refused(b'a="\\ud800 \\udc00"', 5, 3)
refused(b'a="\\ud800\\n"', 5, 3)
refused(b'a="\\ud800\\u0061"', 5, 3)
refused(b'a="\\ud800\\ud800\\udc00"', 5, 3)
refused(b'a="x\\udc00"', 5, 4)
refused(b'a="\\udfff', 5, 3)
refused(b'a="\\ud83d\\ude00\\ude00"', 5, 15)
accepted(b'a="\\ud83d\\ude00"', 2)
accepted(b'a="\\uD800\\uDC00\\uDBFF\\uDFFF"', 2)
accepted(b'a="\\ud7ff\\ue000\\uFFFF\\u0000\\u0080\\u07ff\\u0800"', 2)
# A control byte right after `\` is a bad escape, at the `\`. Control bytes are 00 to 1F.
refused(b'a="\\\n"', 5, 3)
refused(b'a="x\\\x00"', 5, 4)
refused(b'a="\x00"', 5, 3)
refused(b'a="b\x1f', 5, 4)
refused(b'a="b\n"', 5, 4)
refused(b'a="b\tc"', 5, 4)
refused(b'a="\r\n"', 5, 3)
accepted(b'a="\x7f"', 2)
accepted(b'a=\x00\x01\x08\x0e\x1b\x7f', 2)
# `$` where a key would start, and after the key's spaces; but not after a newline or a comment.
refused(b"$", 7, 0)
refused(b"${a}=1", 7, 0)
refused(b"a $", 7, 2)
refused(b"a$", 7, 1)
refused(b"a${b}=1", 7, 1)
refused(b"a.$", 7, 2)
refused(b'"a"$', 7, 3)
refused(b"..$", 7, 2)
refused(b"a\n$", 3, 2)
refused(b"a#\n$", 3, 3)
refused(b"a #$", 4, 4)
refused(b"{$}", 7, 1)
refused(b"a=1,$", 7, 4)
refused(b"a=1\n${b}", 7, 4)
refused(b"[{a $x}]", 7, 4)
accepted(b'"$"=1', 2)
accepted(b'"${a}"=1', 2)
accepted(b'a="${b}"', 2)
accepted(b'a="""${b}"""', 2)
# An element is counted only where a byte starts a piece, and only the value's own pieces say whether it is unresolved.
refused(b"a=[${x}] 5,a=1", 11, 9)
refused(b"a={b=${x}} 5", 11, 11)
refused(b"a=[${x}] {}", 11, 9)
accepted(b"a=[${x}] [5]", 7, 1)
accepted(b"a=[1] ${x} 5", 6, 1)
accepted(b"a=[1] 5 ${x}", 6, 1)
accepted(b"a={} ${x} [] 1", 5, 1)
# Values run on after `}` and `]`; 11 comes after all pieces were read, before the byte that starts no further one.
refused(b"a={b=1}c=2", 11, 7)
refused(b"a=[1]b", 11, 5)
refused(b"a={b=1}{c=2}3", 11, 12)
refused(b"a={b=1}[c]", 11, 7)
refused(b"a=5 [1]", 11, 4)
refused(b"a=5{}", 11, 3)
refused(b"a=5[]", 11, 3)
refused(b'a="x"[]', 11, 5)
refused(b"a=1 2 [] {}", 11, 6)
refused(b"a=[] {} 5", 11, 5)
refused(b'a=[1] 5 "\\x"', 5, 9)
refused(b"a=[1] {", 4, 7)
refused(b"a=[1] {+}", 3, 7)
refused(b"a=[1] 5+", 11, 6)
refused(b"a=[1] 5]", 11, 6)
refused(b"a=[1] 5\n}", 11, 6)
refused(b"[[1] 5", 11, 5)
refused(b"[5 [1]]", 11, 3)
refused(b"[{} 5]", 11, 4)
refused(b"[1,[2] 3]", 11, 7)
refused(b"a={b=[1] 2}", 11, 9)
refused(b"a={b=[1] 2} 3", 11, 9)
refused(b"a.b=[1] 2", 11, 8)
refused(b"a={b=1} x,a=1", 11, 8)
# A key breaks 7 before 8, whatever the places; 8 of a field comes before 3 or 4 at its separator, and after 6.
refused(b"." + dotted(17) + b"=1", 7, 0)
refused(dotted(17) + b".=1", 7, 0)
refused(dotted(17) + b"..a=1", 7, 0)
refused(dotted(17) + b"+", 8, 32)
refused(dotted(17), 8, 32)
refused(dotted(17) + b" $", 7, 34)
refused(dotted(17) + b" -", 5, 34)
refused(dotted(17) + b'"', 4, 34)
refused(dotted(17) + b"\n}", 8, 32)
refused(b"include." + dotted(17), 6, 0)
# A path is judged at its end only, so 3, 4 and 5 come first.
refused(b"a=${a..:}", 3, 7)
refused(b"a=${a..", 4, 7)
refused(b"a=${..-}", 7, 2)
refused(b"a=${.. -}", 5, 7)
refused(b"a=${..\n}", 3, 6)
refused(b"a=${" + dotted(17) + b"+}", 3, 37)
refused(b"a=${" + dotted(17), 4, 37)
refused(b"a=${" + dotted(17) + b".}", 7, 2)
# A key is judged at its end, so its own pieces are read first; its `..` comes before what follows.
refused(b"a..-", 7, 0)
refused(b"a..:", 7, 0)
refused(b"a..+", 7, 0)
refused(b"a..", 7, 0)
refused(b'a.."', 4, 4)
refused(b'a.."\\x"', 5, 4)
refused(b"a.. -", 5, 4)
refused(b"a=1,b..c=1", 7, 4)
refused(b"{ .a=1}", 7, 2)

# ---- Pieces
# After a word and after a number the rest is read afresh.
refused(b"a=true-x", 5, 6)
accepted(b"a=truefalse", 3)
accepted(b"a=2020-01-01", 6)
refused(b"a=${b}-x", 5, 6)
accepted(b"a=${b}-1", 3, 1)
accepted(b"a=true", 2)
accepted(b"a=truefoo", 3)
accepted(b"a=footrue", 2)
accepted(b"a=10.0bar", 3)
accepted(b"a=bar10.0", 2)
accepted(b"a=nullnull", 3)
accepted(b"a=nulltrue1x", 5)
accepted(b"a=tru", 2)
accepted(b"a=True", 2)
accepted(b"a=true.false", 3)
accepted(b"a=falsy", 2)
accepted(b"a=x-1", 2)
accepted(b"a=x -1", 3)
# Numbers: the longest JSON number, then the rest.
for value, pieces in [
    (b"0", 1), (b"-0", 1), (b"10", 1), (b"-12.50", 1), (b"1e5", 1), (b"1E+5", 1), (b"1e-05", 1), (b"0.0e0", 1),
    (b"01", 2), (b"00", 2), (b"-01", 2), (b"1.", 2), (b"1.x", 2), (b"1e", 2), (b"1ex", 2), (b"1.5.5", 2), (b"1e5.5", 2),
    (b"1..5", 2), (b"10ms", 2), (b"512K", 2), (b"1-1", 2), (b"1-1-1", 3), (b"0x1F", 2), (b"1e5e5", 2), (b"1.0-2.0", 2),
    (b"1/2", 2), (b"/1", 1), (b".5", 1), (b"1e-", 2), (b"1e-x", 2), (b"1.e5", 2),
]:
    accepted(b"a=" + value, 1 + pieces)
refused(b"a=1e+", 3, 4)
refused(b"a=1e+x", 3, 4)
refused(b"a=+1", 3, 2)
refused(b"a=1+1", 3, 3)
refused_each(
    5, 2, b"a=-", b"a=-x", b"a=--1", b"a=-.5", b"a=- 1", b"a=-true", b'a=-"1"', b"a=-\n1", b"a=-,", b"a=-}",
    b"a=-${x}", b"a=-//",
)
refused(b"a=1-", 5, 3)
refused(b"a=1-1-", 5, 5)
refused(b"a=x -y", 5, 4)
refused(b'a="x"-', 5, 5)
refused(b'a="""x"""-y', 5, 9)
refused(b"a=[]-", 5, 4)
refused(b"a={}-x", 5, 4)
refused(b"[-]", 5, 1)
refused(b"[1,-a]", 5, 3)
refused(b"-", 5, 0)
refused(b"-=1", 5, 0)
refused(b"a -=1", 5, 2)
refused(b"a=${-}", 5, 4)
refused(b"a=${x -}", 5, 6)
# Unquoted text: what ends it, and what it may hold.
accepted(b"a=x#y", 2)
accepted(b"a=x,", 2)
for special in [b"}", b"]", b":", b"=", b"+", b"`", b"^", b"?", b"!", b"@", b"*", b"&", b"\\"]:
    refused(b"a=x" + special + b"y", 3, 3)
    refused(b"a=" + special, 3, 2)
    refused(b"[1," + special + b"1", 3, 4 if special == b"]" else 3)
    refused(special + b"=1", 3, 0)
    refused(b"a=1," + special + b"=1", 3, 4)
for special in [b"}", b"]", b",", b"+", b"`", b"^", b"?", b"!", b"@", b"*", b"&", b"\\", b"["]:
    refused(b"a" + special + b"1", 3, 1)
    refused(b"a " + special, 3, 2)
refused(b"a=1,[=1", 3, 4)
refused(b"a=1,{=1", 3, 4)
refused(b"[=1", 3, 1)
accepted(b"a=/", 2)
accepted(b"a=x/y", 2)
accepted(b"a=x/y/z;(<|>)~'%_.", 2)
accepted(b"a=x/ /y", 3)
accepted(b"a='x'", 2)
accepted(b"\xc3\xa9=\xf0\x9f\x98\x80", 2)
# Quoted strings are JSON's.
accepted(b'a=""', 2)
accepted(b'a="b"', 2)
accepted(b'a="b"c"d" e', 5)
accepted(b'a="\\"\\\\\\/\\b\\f\\n\\r\\t\\u0041"', 2)
accepted(b'a="#//{}[],:=$\'+`^?!@*&"', 2)
accepted(b'a="\xc3\xa9\xe2\x82\xac\xf0\x9f\x98\x80"', 2)
refused(b'a="', 4, 3)
refused(b'a="b', 4, 4)
refused(b'a="b\\', 4, 5)
refused(b'a="b\\"', 4, 6)
refused(b'a="\\u', 4, 5)
refused(b'a="\\u004', 4, 8)
refused(b'a="\\u0041', 4, 9)
refused(b'a="b"c"', 4, 7)
refused(b'["', 4, 2)
refused(b'{"', 4, 2)
refused(b'"', 4, 1)
refused(b'"a', 4, 2)
refused(b'"a"', 4, 3)
refused(b'a=${"', 4, 5)
for text in [
    b"\\x", b"\\0", b"\\'", b"\\U0041", b"\\u004g", b"\\u", b"\\u 041", b"\\u+041", b"\\a", b"\\\xc3\xa9", b"\\v",
    b"\\ ",
    b"\\u00:0", b"\\u00@0", b"\\u00G0", b"\\u00`0", b"\\u00/0",
]:
    refused(b'a="' + text + b'"', 5, 3)
refused(b'a="b\\x', 5, 4)
refused(b'"\\x"=1', 5, 1)
refused(b'["a","\\q"]', 5, 6)
refused(b'a=${"\\q"}', 5, 5)
refused(b'a=${"\n"}', 5, 5)
# Triple quotes: the opening takes exactly three, the closing run is counted from there.
accepted(b'a=""""""', 2)
tree(b'a="""""""', 0, "7 3 - - 0 0", "5 2 61 22 0 0", "21 1 - - 2 0")
tree(b'a="""foo""""', 0, "7 3 - - 0 0", "5 2 61 666f6f22 0 0", "21 1 - - 2 0")
tree(b'a="""b"c""d"""', 0, "7 3 - - 0 0", "5 2 61 622263222264 0 0", "21 1 - - 2 0")
tree(b'a="""\\n\n\\u0041"""', 0, "7 3 - - 0 0", "5 2 61 5c6e0a5c7530303431 0 0", "21 1 - - 2 0")
refused(b'a="""x""""""y"""', 4, 16)
accepted(b'a="""x""" """y"""', 3)
accepted(b'a="""#//\n\x00\x1f"""', 2)
accepted(b'"""a"""=1', 2)
accepted(b'["""1"""]', 2)
accepted(b'a=x"""y"""', 3)
refused(b'a="""', 4, 5)
refused(b'a=""""', 4, 6)
refused(b'a="""""', 4, 7)
refused(b'a="""x"', 4, 7)
refused(b'a="""x""', 4, 8)
refused(b'a="""x""y"', 4, 10)
accepted(b'a="x"""', 3)
refused(b'a="x""""', 4, 8)
# Inside quotes in a path newline and `#` are text.
accepted(b'a=${?"""x\ny"""}', 2, 1)
accepted(b'a=${"#"}', 2, 1)
accepted(b'a=${"//"."}"}', 2, 1)
accepted(b'"""x\ny"""=1', 2)

# ---- Root
accepted_each(
    0, 0, b" ", b"\n", b"# comment", b"// comment\n", b"{}", b" { } ", b"\n[\n]\n", b"#\n{#\n}#\n", b"[//]\n]//[",
    b"{#}\n}",
)
accepted(b"{a=1}", 2)
accepted(b" \n# x\n{a=1}\n// y", 2)
accepted(b"[1]", 2)
accepted(b"[{a=1}]", 4)
accepted(b"[[]]", 2)
refused(b"a=1}", 3, 3)
refused(b"a=1]", 3, 3)
refused(b"}", 3, 0)
refused(b"]", 3, 0)
refused(b"{a=1", 4, 4)
refused(b"{", 4, 1)
refused(b"[", 4, 1)
refused(b"{ #}", 4, 4)
refused(b"[//]", 4, 4)
refused(b"{}}", 3, 2)
refused(b"[]]", 3, 2)
refused(b"{a=1}}", 3, 5)
refused(b"{a=1]", 3, 4)
refused(b"[1}", 3, 2)
refused(b"{} a=1", 3, 3)
refused(b"{},", 3, 2)
refused(b"{}{}", 3, 2)
refused(b"[] []", 3, 3)
refused(b"[]\n1", 3, 3)
refused(b"[],", 3, 2)
refused(b"{}$", 3, 2)
refused(b"{}-", 3, 2)
refused(b'{}"', 3, 2)
refused(b"{}\n/", 3, 3)
refused(b'"foo"', 4, 5)
refused(b"foo", 4, 3)
refused(b"42", 4, 2)
refused(b"true", 4, 4)
refused(b"a=1 {", 4, 5)
refused(b"a=[1", 4, 4)
refused(b"a=[1,", 4, 5)
refused(b"a=[[1]", 4, 6)
refused(b"a={b={c=1}", 4, 10)
refused(b"a={b=[1}]", 3, 7)
refused(b"[{a=[1}]", 3, 6)

# ---- Whitespace: 09 to 0D, 1C to 1F and 20, Unicode 15's categories Zs, Zl and Zp, and U+FEFF; of these 0A alone is a
# newline. All else is ordinary.
ASCII_SPACES = [b"\x09", b"\x0b", b"\x0c", b"\x0d", b"\x1c", b"\x1d", b"\x1e", b"\x1f", b"\x20"]
WIDE_SPACES = [
    b"\xc2\xa0", b"\xe1\x9a\x80",
    b"\xe2\x80\x80", b"\xe2\x80\x81", b"\xe2\x80\x82", b"\xe2\x80\x83", b"\xe2\x80\x84", b"\xe2\x80\x85",
    b"\xe2\x80\x86", b"\xe2\x80\x87", b"\xe2\x80\x88", b"\xe2\x80\x89", b"\xe2\x80\x8a",
    b"\xe2\x80\xa8", b"\xe2\x80\xa9", b"\xe2\x80\xaf", b"\xe2\x81\x9f", b"\xe3\x80\x80", b"\xef\xbb\xbf",
]
for space in ASCII_SPACES + WIDE_SPACES:
    size = len(space)
    # Outer whitespace is dropped: around a document, its root, members, keys, values
    accepted_each(
        0, 0,
        space, 2 * space, space + b"{" + space + b"}" + space, space + b"[" + space + b"]" + space, space + b"#" + space,
        b"\n" + space + b"\n",
    )
    accepted(space + b"a" + space + b"=" + space + b"1" + space + b"2" + space, 3)
    accepted(b"{" + space + b"a" + space + b":" + space + b"1" + space + b"," + space + b"b=2" + space + b"," + space + b"}", 4)
    accepted(b"[" + space + b"1" + space + b"," + space + b"2" + space + b"]", 4)
    accepted_each(2, 0, b"a" + space + b"{" + space + b"}", b"a\n" + space + b"\n=\n" + space + b"1")
    accepted(b"a=[]" + space + b"[]", 3)
    tree(b"a=1" + space, 0, "7 3 - - 0 0", "4 2 61 31 0 0", "20 1 - - 2 0")
    tree(b"a=true" + space, 0, "7 3 - - 0 0", "3 2 61 74727565 0 0", "19 1 - - 2 0")
    tree(b"a=x" + space, 0, "7 3 - - 0 0", "5 2 61 78 0 0", "21 1 - - 2 0")
    tree(b'a="x"' + space, 0, "7 3 - - 0 0", "5 2 61 78 0 0", "21 1 - - 2 0")
    # ... that between simple pieces and inside keys is kept, and it ends unquoted text, numbers and words
    for first, last in [(b"x", b"y"), (b"1", b"2"), (b"true", b"null"), (b"1", b"x"), (b"1.", b"5"), (b"/", b"/")]:
        kept = first + space + last
        accepted(b"a=" + kept, 4 if b"." in first else 3)
        accepted(b"[" + kept + b"]", 4 if b"." in first else 3)
    tree(
        b"a=x" + space + b"y" + space, 0,
        "7 4 - - 0 0", f"5 3 61 78{space.hex()}79 0 0", "21 1 - - 2 0", f"21 1 - - {3 + size} 0",
    )
    tree(b"a" + space + b"b=1", 0, "7 3 - - 0 0", f"4 2 61{space.hex()}62 31 0 0", f"20 1 - - {3 + size} 0")
    tree(
        b"a" + space + b"." + space + b"b=1", 0,
        "7 4 - - 0 0", f"7 3 61{space.hex()} - 0 0", f"4 2 {space.hex()}62 31 {2 + size} 0", f"20 1 - - {4 + 2 * size} 0",
    )
    if space >= b" ":  # control bytes are escaped there
        tree(b'a="' + space + b'"', 0, "7 3 - - 0 0", f"5 2 61 {space.hex()} 0 0", "21 1 - - 2 0")
    tree(b'a="""' + space + b'"""', 0, "7 3 - - 0 0", f"5 2 61 {space.hex()} 0 0", "21 1 - - 2 0")
    # ... in substitutions
    for opening in [b"${", b"${?"]:
        kind = 25 if opening == b"${" else 26
        tree(b"a=" + opening + space + b"x" + space + b"}", 1, "7 3 - - 0 0", "8 2 61 - 0 0", f"{kind} 1 - 780001 2 1")
        tree(
            b"a=" + opening + b"x" + space + b"y}", 1,
            "7 3 - - 0 0", "8 2 61 - 0 0", f"{kind} 1 - 78{space.hex()}79000{2 + size} 2 1",
        )
        refused(b"a=" + opening + space + b"}", 7, 2)
        refused(b"a=" + opening + space + b".x}", 7, 2)
        refused(b"a=" + opening + b"x" + space + b"\n}", 3, 3 + len(opening) + size)
    refused(b"a=${" + space + b"?x}", 3, 4 + size)
    refused(b"a=$" + space + b"{x}", 3, 2)
    tree(
        b"a=${x}" + space + b"y", 1,
        "7 4 - - 0 0", "8 3 61 - 0 0", "25 1 - 780001 2 1", f"21 1 {space.hex()} 79 {6 + size} 0",
    )
    # ... it is no newline: it parts no fields, and a comment goes on behind it
    refused(b"a=1" + space + b"b=2", 3, 4 + size)
    refused(b"a={}" + space + b"b=2", 11, 4 + size)
    refused(b"{}" + space + b"a=1", 3, 2 + size)
    accepted_each(2, 0, b"a=1#" + space + b"b=2", b"a=1//" + space + b"b=2", b"#" + space + b"b=2\na=1")
    # ... and it stands for nothing
    refused(space, 1, 0, b"=\0")
    refused(space + b"=1", 3, size)
    refused(b"[1," + space + b",2]", 3, 3 + size)
    refused(b"a=" + space, 4, 2 + size)
    refused(b"a" + space, 4, 1 + size)
    refused(b"a=" + space + b"-" + space + b"1", 5, 2 + size)
    refused(b"include" + space + b'"s"', 6, 0)
    refused(space + b"include" + space + b"x=1", 6, size)
    refused(b"a" + space + b"$x=1", 7, 1 + size)
    refused(b"a=[]" + space + b"1", 11, 4 + size)
accepted(b"\na\n=\n1\n", 2)
# Neither are the neighbours of the characters that are, nor U+0085, 180E, 200B to 200D and 2060, whatever they look like.
for ordinary in [
    b"\x00", b"\x08", b"\x0e", b"\x1b", b"\x7f", b"\xc2\x85", b"\xc2\x9f", b"\xc2\xa1", b"\xc3\xa0", b"\xe1\x99\xbf",
    b"\xe1\x9a\x81", b"\xe1\xa0\x8e", b"\xe1\xbf\xbf", b"\xe2\x80\x8b", b"\xe2\x80\x8c", b"\xe2\x80\x8d", b"\xe2\x80\xa7",
    b"\xe2\x80\xaa", b"\xe2\x80\xae", b"\xe2\x80\xb0", b"\xe2\x81\x80", b"\xe2\x81\x9e", b"\xe2\x81\xa0", b"\xe2\x82\x80",
    b"\xe2\xbf\xbf", b"\xe3\x80\x81", b"\xe3\x85\xa4", b"\xef\xbb\xbe", b"\xef\xbc\x80", b"\xef\xbf\xbe", b"\xf0\x90\x80\x80",
    b"\xf0\xa0\x80\x80",
]:
    accepted(b"a=1" + ordinary + b"2", 3)
    accepted(ordinary + b"a=" + ordinary, 2)
    tree(ordinary + b"=1", 0, "7 3 - - 0 0", f"4 2 {ordinary.hex()} 31 0 0", f"20 1 - - {1 + len(ordinary)} 0")
    refused(ordinary, 4, len(ordinary))
# A byte order mark is whitespace wherever it stands.
tree(b"\xef\xbb\xbfa=1", 0, "7 3 - - 0 0", "4 2 61 31 3 0", "20 1 - - 5 0")
tree(b"\xef\xbb\xbf[]", 0, "6 1 - - 0 0")
accepted(b"a=1\n\xef\xbb\xbfb=2", 4)
# The bytes of such a character cut short, or without its first, are no character.
refused_each(2, 3, b"a=1\xc2", b"a=1\xe2\x80", b"a=1\xe2", b"a=1\xef\xbb", b"a=1\xa0", b"a=1\x80\x80")
refused(b"a=1 \xe3\x80 ", 2, 4)
# Outer whitespace is dropped, that between simple pieces kept, that between containers has no meaning.
tree(b"a= \t x \x1c\x1fy \r", 0, "7 4 - - 0 0", "5 3 61 78201c1f79 0 0", "21 1 - - 5 0", "21 1 - - 9 0")
accepted(b"a = [ 1 ] \t [ 2 ]", 7)
accepted(b"a=x\ny=1", 4)
refused(b"a=x\ny", 4, 5)
refused(b"a=[1]\n[2]", 3, 6)
refused(b"a={}\n{}", 3, 5)
refused(b"a=1\n2", 4, 5)
accepted(b"a=1\n2=3", 4)

# ---- Comments: from `#` or `//` up to the newline.
accepted_each(
    2, 0,
    b"a=1#", b"a=1//", b"a=1 # x", b"a=1//x\n", b"#x\na=1", b"//x\na=1", b"a#x\n=1", b"a//x\n=1", b"a=#x\n1",
    b"a=//x\n1",
    b"a #x\n#y\n\n= //z\n\n1", b"a=1//x//y#z", b"a=1 ///", b"##\n////\na=1", b"{#{\na=1#}\n}#", b"a=1#\xc3\xa9",
    b"a=1#\"", b"a=1#\x00",
)
accepted(b"a=/ /", 3)
accepted(b"a=x/#", 2)
accepted(b"a=/#/", 2)
accepted(b"a=x///y", 2)
accepted(b"[1#,\n2]", 4)
accepted(b"[1,#,\n2]", 4)
accepted(b"[1//]\n]", 2)
accepted(b"a=1#\nb=2", 4)
accepted(b"a=1#\r2\r", 2)
refused(b"a=#", 4, 3)
refused(b"a=//x", 4, 5)
refused(b"a#=1", 4, 4)
refused(b"a//=1", 4, 5)
refused(b"a.//=1", 7, 0)
refused(b"a=1 #\n2", 4, 7)
refused(b"#\xff", 2, 1)
refused(b"/", 4, 1)
accepted(b"/=1", 2)

# ---- Key and value
accepted_each(
    2, 0, b"a:1", b"a = 1", b"a : 1", b"a\n:\n1", b"a\n\n=1", b"a {}", b"a{}", b"a\n{}", b"a#x\n{}", b"a={}",
    b"a:\n{}", b"a\t=\t1",
)
accepted(b'"foo" {}', 2)
accepted(b'"foo" : {}', 2)
refused(b"a==1", 3, 2)
refused(b"a=:1", 3, 2)
refused(b"a::1", 3, 2)
refused(b"a=b=c", 3, 3)
refused(b"a=b:c", 3, 3)
refused(b"a+=b", 3, 1)
refused(b"a += b", 3, 2)
refused(b"a=", 4, 2)
refused(b"a= ", 4, 3)
refused(b"a=\n", 4, 3)
refused(b"a", 4, 1)
refused(b"a \n", 4, 3)
refused(b"a:", 4, 2)
refused(b"{a}", 3, 2)
refused(b"{a=}", 3, 3)
refused(b"{a=\n}", 3, 4)
refused(b"{a:,b:1}", 3, 3)
refused(b"a=,", 3, 2)
refused(b"a=\n,", 3, 3)
refused(b"a,", 3, 1)
refused(b"a\nb=1", 3, 2)
refused(b"a[1]", 3, 1)
refused(b"a=1,b", 4, 5)
refused(b"a=1\nb\nc=1", 3, 6)
refused(b"{a {}", 4, 5)
refused(b"{}=1", 3, 2)
refused(b"=1", 3, 0)
refused(b":", 3, 0)
refused(b"{=1}", 3, 1)
refused(b'""', 4, 2)
accepted(b"a{b{c=1}}", 6)
accepted(b"a{}{}", 3)
refused(b"a{}=1", 3, 3)
refused(b"a={}=1", 3, 4)
refused(b"a{}b{}", 11, 3)
accepted(b"a{}\nb{}", 4)
accepted(b"a{},b{}", 4)

# ---- Commas and newlines
accepted_each(
    6, 0, b"[1,2,3,]", b"[1,2,3]", b"[1\n2\n3]", b"[1,\n2\n,3\n,\n]", b"[\n\n1\n\n2,3\n\n]", b"[ 1 , 2 , 3 , ]",
    b"[1#\n2//\n3]", b"[1\n,2\n,3]",
)
accepted_each(
    4, 0, b"{a=1,b=2,}", b"{a=1\nb=2}", b"{a=1,b=2}", b"{a=1\n,\nb=2\n,\n}", b"a=1,b=2,", b"a=1\nb=2\n",
    b"a=1\n\n\nb=2", b"a=1,\n\nb=2\n,",
)
refused(b"[1,2,3,,]", 3, 7)
refused(b"[,1,2,3]", 3, 1)
refused(b"[1,,2,3]", 3, 3)
refused(b"{a=1,b=2,,}", 3, 9)
refused(b"{,a=1}", 3, 1)
refused(b"{a=1,,b=2}", 3, 5)
refused(b"a=1,,", 3, 4)
refused(b",a=1", 3, 0)
refused(b",", 3, 0)
refused(b"\n,a=1", 3, 1)
refused(b"a=1,,b=2", 3, 4)
refused(b"a=1,\n,b=2", 3, 5)
refused(b"a=1\n,\n,b=2", 3, 6)
refused(b"a=1,#\n,", 3, 6)
refused(b"[,]", 3, 1)
refused(b"{,}", 3, 1)
refused(b"[\n,]", 3, 2)
refused(b"[1\n,\n,2]", 3, 5)
refused(b"[1,#x\n,2]", 3, 6)
refused(b"{a=1}b=2", 3, 5)
refused(b"[1 : 2]", 3, 3)
refused(b"[1 = 2]", 3, 3)
refused(b"[a=1]", 3, 2)
accepted(b"[1 2 3 4]", 5)
accepted(b"[\n]", 0)
accepted(b"[1,\n]", 2)
accepted(b"[[1,],]", 4)
accepted(b"a=[1\n2]\nb={c=1\nd=2}", 12)

# ---- Keys and paths
accepted(b"a. .b=1", 4)
accepted(b'a."".b=1', 4)
accepted(b'""=1', 2)
accepted(b'""""""=1', 2)
accepted(b'"".""=1', 3)
accepted(b'a.""""""=1', 3)
accepted(b'""a=1', 2)
accepted(b'" "=1', 2)
refused_each(
    7, 0, b"a..b=1", b".a=1", b"a.=1", b".=1", b"..=1", b"a. =1", b"a.\n=1", b"a.b..c=1", b'.""=1', b'"a"..b=1', b".",
    b"a.", b"1.=1", b"a.{b=1}", b"a.}", b"a.,",
)
refused(b" .a=1", 7, 1)
refused(b"a=1, .=1", 7, 5)
accepted_each(
    2, 0,
    b"a b c : 42", b'"a b c" : 42', b"true : 42", b"3 : 42", b"null=1", b"false=1", b"-1=1", b"1e5=1", b'"a.b"=1',
    b'foo"10.0"=1',
    b"a-b=1", b"2020-01-01=1", b"a  b\tc=1", b'a"b"c=1', b"truefalse=1", b"1a=1", b"x-=1", b"true x=1",
)
accepted_each(
    3, 0, b"foo.bar : 42", b"3.14 : 42", b"10.0foo=1", b"foo10.0=1", b"-1.5=1", b'a."b.c"=1', b"true.false=1",
    b"1.x=1", b"a.-1=1", b'"a" . b=1', b"1.-=1",
)
accepted_each(4, 0, b"foo.bar.baz : 42", b"1.2.3=1", b'foo.bar."hello.world"=1', b"1.5.x=1")
accepted(b"foo { bar : 42 }", 4)
accepted(b"foo { bar { baz : 42 } }", 6)
accepted(b"a.x : 42, a.y : 43", 6)
accepted(b"a { x : 42, y : 43 }", 6)
accepted(b"a.b{c=1}", 5)
accepted(b"a.b.c{}", 4)
accepted(b"a.b=${c}", 3, 1)
# Substitutions
accepted_each(
    2, 1,
    b"a=${?b}", b"a=${b.c}", b"a=${ b }", b"a=${?\tb\x1f}", b"a=${ b c }", b'a=${"b"}', b'a=${""}', b'a=${"".""}',
    b"a=${1.5}",
    b"a=${true}", b"a=${-1}", b"a=${b . c}", b'a=${b."c.d".e}', b"a=${include.x}", b'a=${" "}', b"a=${a. .b}",
    b"a=${b-c}", b"a:${b}",
    b'a=${?""}', b'a=${"\\u0041"}', b'a=${"""b"""}', b"a=${b/c}", b"a=${\xc3\xa9}",
)
refused_each(
    7, 2, b"a=${}", b"a=${?}", b"a=${ }", b"a=${? }", b"a=${.}", b"a=${a..b}", b"a=${.a}", b"a=${a.}", b"a=${?a.}",
    b"a=${a. }", b'a=${"a"..b}', b"a=${ .a}",
)
refused(b"a=x ${}", 7, 4)
refused(b"[${a.}]", 7, 1)
refused(b"a=${x}${}", 7, 6)
refused_each(
    3, 4, b"a=${\n}", b"a=${{}}", b"a=${[}", b"a=${$}", b"a=${:}", b"a=${,}", b"a=${#}", b"a=${//}", b"a=${+}",
    b"a=${!}", b"a=${${b}}", b"a=${\na}",
)
refused_each(
    3, 5, b"a=${ ?b}", b"a=${b$}", b"a=${b?}", b"a=${b\n}", b"a=${b#}", b"a=${b//}", b"a=${b=1}", b"a=${b{",
    b"a=${??b}", b"a=${?\nb}", b"a=${b,c}", b"a=${b${c}}", b"a=${b]",
)
refused(b"a=${b #}", 3, 6)
refused(b"a=${b $x}", 3, 6)
refused(b"a=${b ${c}}", 3, 6)
refused_each(4, 4, b"a=${")
refused(b"a=${?", 4, 5)
refused(b"a=${ ", 4, 5)
refused(b"a=${b", 4, 5)
refused(b"a=${b ", 4, 6)
refused(b"a=${b.", 4, 6)
refused(b"a=1${", 4, 5)
refused(b"[${b", 4, 4)
accepted(b"a=${b}${c}", 3, 1)
accepted(b"a=${b} ${c} d", 4, 1)
accepted(b"a=${b}[1]", 5, 1)
accepted(b"a=[1]${b}", 5, 1)
accepted(b"a=${b}{c=1}", 5, 1)
accepted(b"a=${b}{c=${d}}", 5, 2)
accepted(b"[${a},${?b}]", 4, 2)
accepted(b"[${a}\n${?b}]", 4, 2)
accepted(b"[${a} ${?b}]", 3, 1)
accepted(b"a=${b},a=${c},a=1", 6, 2)
refused(b"a=${b}=1", 3, 6)
refused(b"a=${b}}", 3, 6)

# ---- UTF-8: 2 at the first byte of the first ill-formed sequence, over the whole document, before anything else of it.
for ill in [
    b"\x80", b"\xbf", b"\xc0\x80", b"\xc1\xbf", b"\xc3", b"\xe0\x80\x80", b"\xe0\x9f\xbf", b"\xe2\x82", b"\xed\xa0\x80",
    b"\xed\xbf\xbf", b"\xf0\x80\x80\x80", b"\xf0\x8f\xbf\xbf", b"\xf0\x9f\x98", b"\xf4\x90\x80\x80",
    b"\xf5\x80\x80\x80", b"\xfe", b"\xff",
]:
    refused(b"a=" + ill, 2, 2)
    refused(b"+" + ill + b"x", 2, 1)
refused(b"a=\xc3\xa9\xc3", 2, 4)
refused(b"a=\xf0\x9f\x98\x80\xf0\x9f\x98", 2, 6)
refused(b"a=1,\x80,\x80", 2, 4)
refused(b"\xc3=1", 2, 0)
refused(b'a="\xff"', 2, 3)
refused(b'a="""\xff', 2, 5)
refused(b'a="\\\xff', 2, 4)
refused(b"include\xff", 2, 7)
refused(b"[1,,2]\xff", 2, 6)
refused(b"$\xff", 2, 1)
refused(b"a=${\xff}", 2, 4)
refused(b"-\xc3(", 2, 1)
accepted(b"a=\xc2\x80\xdf\xbf\xe0\xa0\x80\xed\x9f\xbf\xee\x80\x80\xef\xbf\xbf\xf0\x90\x80\x80\xf4\x8f\xbf\xbf", 2)
refused(b"\xc3\xa9+", 3, 2)
refused(b"\xc3\xa9", 4, 2)

# ---- The source's examples, in its order. A fragment is put into a small field. Those that stand above are left out,
# unless their items are written by hand here.
# A number that JSON does not have is text. Where the source writes `\n` it means a newline: a backslash is not allowed.
tree(b"a = NaN", 0, "7 3 - - 0 0", "5 2 61 4e614e 0 0", "21 1 - - 4 0")
refused(b"[1\\n2\\n3]", 3, 2)
# Equal keys; of two objects in one document the second is not allowed.
accepted(b'{\n    "foo" : { "a" : 42 },\n    "foo" : { "b" : 43 }\n}\n', 8)
accepted(b'{\n    "foo" : { "a" : 42, "b" : 43 }\n}\n', 6)
refused(
    b'{\n    "foo" : { "a" : 42 },\n    "foo" : { "b" : 43 }\n}\n\n'
    b'{\n    "foo" : { "a" : 42, "b" : 43 }\n}\n',
    3, 2 + 26 + 25 + 3,
)
accepted(b'{\n    "foo" : { "a" : 42 },\n    "foo" : null,\n    "foo" : { "b" : 43 }\n}\n', 10)
accepted(b'{\n    "foo" : { "b" : 43 }\n}\n', 4)
refused(
    b'{\n    "foo" : { "a" : 42 },\n    "foo" : null,\n    "foo" : { "b" : 43 }\n}\n\n{\n    "foo" : { "b" : 43 }\n}\n',
    3, 2 + 26 + 18 + 25 + 3,
)
# Unquoted strings, and values of several pieces
tree(b"a = truefoo", 0, "7 4 - - 0 0", "5 3 61 74727565666f6f 0 0", "19 1 - - 4 0", "21 1 - - 8 0")
tree(b"a = footrue", 0, "7 3 - - 0 0", "5 2 61 666f6f74727565 0 0", "21 1 - - 4 0")
tree(b"a = 10.0bar", 0, "7 4 - - 0 0", "5 3 61 31302e30626172 0 0", "20 1 - - 4 0", "21 1 - - 8 0")
tree(b"a = bar10.0", 0, "7 3 - - 0 0", "5 2 61 62617231302e30 0 0", "21 1 - - 4 0")
accepted(b"a = foo bar baz", 4)
tree(
    b"a =  foo bar baz ", 0,
    "7 5 - - 0 0",
    "5 4 61 666f6f206261722062617a 0 0", "21 1 - - 5 0", "21 1 - - 9 0", "21 1 - - 13 0",
)
accepted(b'a = "foo bar baz"', 2)
tree(b"a = foo bar", 0, "7 4 - - 0 0", "5 3 61 666f6f20626172 0 0", "21 1 - - 4 0", "21 1 - - 8 0")
tree(b'a = "foo bar"', 0, "7 3 - - 0 0", "5 2 61 666f6f20626172 0 0", "21 1 - - 4 0")
# ... a word or a number alone keeps its type, in quotes it is a string; with a further piece it is text as written
tree(
    b'[ "true", "false", "null" ]', 0,
    "6 7 - - 0 0",
    "5 2 - 74727565 2 0", "21 1 - - 2 0",
    "5 2 - 66616c7365 10 0", "21 1 - - 10 0",
    "5 2 - 6e756c6c 19 0", "21 1 - - 19 0",
)
tree(
    b"a = true false null", 0,
    "7 5 - - 0 0",
    "5 4 61 747275652066616c7365206e756c6c 0 0", "19 1 - - 4 0", "18 1 - - 9 0", "17 1 - - 15 0",
)
tree(
    b"[ 1e5, 1E5, 100000 ]", 0,
    "6 7 - - 0 0",
    "4 2 - 316535 2 0", "20 1 - - 2 0",
    "4 2 - 314535 7 0", "20 1 - - 7 0",
    "4 2 - 313030303030 12 0", "20 1 - - 12 0",
)
tree(
    b"a = 1e5 1E5 100000", 0,
    "7 5 - - 0 0",
    "5 4 61 3165352031453520313030303030 0 0", "20 1 - - 4 0", "20 1 - - 8 0", "20 1 - - 12 0",
)
tree(b"[ true ]", 0, "6 3 - - 0 0", "3 2 - 74727565 2 0", "19 1 - - 2 0")
tree(b"a = true foo", 0, "7 4 - - 0 0", "5 3 61 7472756520666f6f 0 0", "19 1 - - 4 0", "21 1 - - 9 0")
# Objects and arrays of several pieces: newlines inside them, but not between them
accepted(
    b"// one object\na : { b : 1, c : 2 }\n"
    b"// two objects that are merged via concatenation rules\na : { b : 1 } { c : 2 }\n"
    b"// two fields that are merged\na : { b : 1 }\na : { c : 2 }\n",
    6 + 7 + 8,
)
accepted(b"a : {\nb : 1\n} {\nc : 2\n}", 7)
refused(b"a : { b : 1 }\n{ c : 2 }", 3, 14)
refused(b"a : { b : 1 } [ 3, 4 ]", 11, 14)
accepted(
    b"// one array\na : [ 1, 2, 3, 4 ]\n"
    b"// two arrays that are concatenated\na : [ 1, 2 ] [ 3, 4 ]\n"
    b'// a later definition referring to an earlier\n// (see "self-referential substitutions" below)\n'
    b"a : [ 1, 2 ]\na : ${a} [ 3, 4 ]\n",
    10 + 11 + 6 + 7, 1,
)
accepted(b"a : [\n1\n2\n] [\n3\n4\n]", 11)
refused(b"a : [ 1, 2 ]\n[ 3, 4 ]", 3, 13)
accepted(
    b"data-center-generic = { cluster-size = 6 }\n"
    b'data-center-east = ${data-center-generic} { name = "east" }\n',
    4 + 5, 1,
)
accepted(b"path = [ /bin ]\npath = ${path} [ /usr/bin ]\n", 4 + 5, 1)
accepted(b'// this is an array with one element, the string "1 2 3 4"\n[ 1 2 3 4 ]\n', 5)
accepted(b"// this is an array of four integers\n[ 1\n  2\n  3\n  4 ]\n", 8)
accepted(b"// an array of one element, the array [ 1, 2, 3, 4 ]\n[ [ 1, 2 ] [ 3, 4 ] ]\n", 11)
accepted(b"// an array of two arrays\n[ [ 1, 2 ]\n  [ 3, 4 ] ]\n", 12)
refused(
    b'// this is an array with one element, the string "1 2 3 4"\n[ 1 2 3 4 ]\n'
    b"// this is an array of four integers\n[ 1\n  2\n  3\n  4 ]\n\n"
    b"// an array of one element, the array [ 1, 2, 3, 4 ]\n[ [ 1, 2 ] [ 3, 4 ] ]\n"
    b"// an array of two arrays\n[ [ 1, 2 ]\n  [ 3, 4 ] ]\n",
    3, 59 + 12 + 37,
)
accepted(b"[ This is an unquoted string my name is ${name}, Hello ${world} ]", 10 + 3, 2)
accepted(b"[ ${a} ${b}, ${x} ${y} ]", 6, 2)
refused(
    b"[ This is an unquoted string my name is ${name}, Hello ${world} ]\n[ ${a} ${b}, ${x} ${y} ]\n",
    3, 66,
)
# Paths: the elements of each, in a substitution and as a key
tree(b"a = ${foo.bar}", 1, "7 3 - - 0 0", "8 2 61 - 0 0", "25 1 - 666f6f62617200030006 4 2")
tree(b"{ foo.bar : 42 }", 0, "7 4 - - 0 0", "7 3 666f6f - 2 0", "4 2 626172 3432 6 0", "20 1 - - 12 0")
tree(
    b'a = ${foo.bar."hello.world"}', 1,
    "7 3 - - 0 0",
    "8 2 61 - 0 0", "25 1 - 666f6f62617268656c6c6f2e776f726c64000300060011 4 3",
)
tree(
    b'foo.bar."hello.world" : 42', 0,
    "7 5 - - 0 0",
    "7 4 666f6f - 0 0", "7 3 626172 - 4 0", "4 2 68656c6c6f2e776f726c64 3432 8 0", "20 1 - - 24 0",
)
tree(b"a = ${10.0foo}", 1, "7 3 - - 0 0", "8 2 61 - 0 0", "25 1 - 313030666f6f00020006 4 2")
tree(b"10.0foo : 42", 0, "7 4 - - 0 0", "7 3 3130 - 0 0", "4 2 30666f6f 3432 3 0", "20 1 - - 10 0")
tree(b"a = ${foo10.0}", 1, "7 3 - - 0 0", "8 2 61 - 0 0", "25 1 - 666f6f31303000050006 4 2")
tree(b"foo10.0 : 42", 0, "7 4 - - 0 0", "7 3 666f6f3130 - 0 0", "4 2 30 3432 6 0", "20 1 - - 10 0")
tree(b'a = ${foo"10.0"}', 1, "7 3 - - 0 0", "8 2 61 - 0 0", "25 1 - 666f6f31302e300007 4 1")
tree(b'foo"10.0" : 42', 0, "7 3 - - 0 0", "4 2 666f6f31302e30 3432 0 0", "20 1 - - 12 0")
tree(b"a = ${1.2.3}", 1, "7 3 - - 0 0", "8 2 61 - 0 0", "25 1 - 313233000100020003 4 3")
tree(b"1.2.3 : 42", 0, "7 5 - - 0 0", "7 4 31 - 0 0", "7 3 32 - 2 0", "4 2 33 3432 4 0", "20 1 - - 8 0")
tree(b"a = ${true}", 1, "7 3 - - 0 0", "8 2 61 - 0 0", "25 1 - 747275650004 4 1")
tree(b'a = ${a."".b}', 1, "7 3 - - 0 0", "8 2 61 - 0 0", "25 1 - 6162000100010002 4 3")
tree(b'a."".b : 42', 0, "7 5 - - 0 0", "7 4 61 - 0 0", "7 3 - - 2 0", "4 2 62 3432 5 0", "20 1 - - 9 0")
accepted_each(2, 0, b'"true" : 42', b'"3" : 42')
accepted(b'"3" : { "14" : 42 }', 4)
# Substitutions: `${?` in one, none in a key or in another, and none inside quotes
accepted_each(2, 1, b"a = ${pathexpression}", b"a = ${?pathexpression}")
refused(b"a = ${ ?pathexpression}", 3, 7)
refused(b"a = $ {?pathexpression}", 3, 4)
refused(b"${pathexpression} : 42", 7, 0)
refused(b"a = ${foo.${bar}}", 3, 10)
accepted(b"key : ${animal.favorite} is my favorite animal", 6, 1)
accepted(b'key : ${animal.favorite}" is my favorite animal"', 3, 1)
accepted(b'key : "${animal.favorite} is my favorite animal"', 2)
accepted(b'{ "HOME" : null }', 2)
accepted(b'{ "HOME" : null, a : ${HOME} }', 4, 1, b"HOME=/home\0")
accepted(b"foo : ${?bar}", 2, 1)
accepted(b"foo : ${?bar}${?baz}", 3, 1)
accepted(b"[ ${?foo} ]", 2, 1)
# A field that refers to itself
accepted(b'path : "a:b:c"\npath : ${path}":d"', 5, 1)
refused(b"path : a:b:c", 3, 8)
accepted(b"a : ${a}", 2, 1)
accepted(b"a : ${a}bc", 3, 1)
accepted(b"path : ${path} [ /usr/bin ]", 5, 1)
accepted(b"a : { b : ${a} }", 4, 1)
accepted(b"a : [${a}]", 4, 1)
accepted(b"a={ x : 42, y : ${a.x} }", 6, 1)
accepted(b"a = ${?a} [b]", 5, 1)
accepted(b"a = []", 2)
accepted(b"foo : ${foo} // an error", 2, 1)
accepted(b"foo : { a : 1 }", 4)
accepted(b"foo : ${foo}", 2, 1)
accepted(b"foo : { a : 1 }\nfoo : ${foo}", 6, 1)
accepted(b"{ a : 1 }", 2)
accepted(b"foo : ${foo}\nfoo : { a : 1 }", 6, 1)
accepted(b"foo : ${?foo} // this field just disappears silently", 2, 1)
accepted(b"foo : ${does-not-exist}\nfoo : 42", 4, 1)
accepted(b"foo : ${foo}, foo : 42", 4, 1)
accepted(b"foo : { a : { c : 1 } }\nfoo : ${foo.a}\nfoo : { a : 2 }\n", 12, 1)
accepted(b"{ c : 1 }", 2)
accepted(b"{ a : 2, c : 1 }", 4)
accepted(b"bar : { foo : 42,\n        baz : ${bar.foo}\n      }\n", 6, 1)
accepted(b"bar : { foo : 42,\n        baz : ${bar.foo}\n      }\nbar : { foo : 43 }\n", 6 + 4, 1)
accepted(
    b"// bar.a should end up as 4\nbar : { a : ${foo.d}, b : 1 }\nbar.b = 3\n"
    b"// foo.c should end up as 3\nfoo : { c : ${bar.b}, d : 2 }\nfoo.d = 4\n",
    6 + 3 + 6 + 3, 2,
)
accepted(b"a = ${?a}foo\n", 3, 1)
accepted(b"bar : ${foo}\nfoo : ${bar}\n", 4, 2)
accepted(b"a : ${b}\nb : ${c}\nc : ${a}\n", 6, 3)
accepted(b"a : 1\nb : 2\na : ${b}\nb : ${a}\n", 8, 2)
# Objects that are merged: each alone, what comes out, and all in an array
accepted_each(4, 0, b"{ a : { x : 1 } }", b"{ a : { y : 2 } }")
accepted_each(2, 0, b"{ a : 42 }", b"{ y : 2 }")
accepted(b"{ a : { x : 1, y : 2 } }", 6)
accepted(b"[ { a : { x : 1 } }, { a : 42 }, { a : { y : 2 } } ]", 6 + 4 + 6)
accepted(b"[ { a : { x : 1 } }, { a : { y : 2 } }, { a : 42 } ]", 6 + 6 + 4)
# Keys
accepted_each(2, 0, b"hyphen-separated : 42", b"camelCase : 42")
# Where document 01 is narrower: no `include`, no `+=`.
refused(b'include "foo.conf"\n', 6, 0)
refused(b'a : { include "foo.conf" }', 6, 6)
refused(b"path += /usr/bin", 3, 5)
refused(b"a = []\na += b\n", 3, 9)
# The source's whitespace
for space in [b"\xc2\xa0", b"\xe2\x80\x87", b"\xe2\x80\xaf", b"\xe2\x80\xa8", b"\xe2\x80\xa9", b"\xef\xbb\xbf"]:
    accepted(space + b"{ a : 1 }", 2)
# ... no type conversion: of the six words for a boolean two are one, and in quotes none
tree(
    b"[true, yes, on, false, no, off]", 0,
    "6 13 - - 0 0",
    "3 2 - 74727565 1 0", "19 1 - - 1 0",
    "5 2 - 796573 7 0", "21 1 - - 7 0",
    "5 2 - 6f6e 12 0", "21 1 - - 12 0",
    "2 2 - 66616c7365 16 0", "18 1 - - 16 0",
    "5 2 - 6e6f 23 0", "21 1 - - 23 0",
    "5 2 - 6f6666 27 0", "21 1 - - 27 0",
)
accepted(b'[ "true", "yes", "on", "false", "no", "off" ]', 12)
# ... no units: their names are text, and a number with one is two pieces, where an `e` could be an exponent too
accepted(
    b"[ ns, nanosecond, nanoseconds\nus, microsecond, microseconds\nms, millisecond, milliseconds\n"
    b"s, second, seconds\nm, minute, minutes\nh, hour, hours\nd, day, days ]",
    2 * 7 * 3,
)
accepted(
    b"[ B, b, byte, bytes\nkB, kilobyte, kilobytes\nMB, megabyte, megabytes\nGB, gigabyte, gigabytes\n"
    b"TB, terabyte, terabytes\nPB, petabyte, petabytes\nEB, exabyte, exabytes\nZB, zettabyte, zettabytes\n"
    b"YB, yottabyte, yottabytes ]",
    2 * (4 + 8 * 3),
)
accepted(
    b"[ K, k, Ki, KiB, kibibyte, kibibytes\nM, m, Mi, MiB, mebibyte, mebibytes\nG, g, Gi, GiB, gibibyte, gibibytes\n"
    b"T, t, Ti, TiB, tebibyte, tebibytes\nP, p, Pi, PiB, pebibyte, pebibytes\nE, e, Ei, EiB, exbibyte, exbibytes\n"
    b"Z, z, Zi, ZiB, zebibyte, zebibytes\nY, y, Yi, YiB, yobibyte, yobibytes ]",
    2 * 8 * 6,
)
accepted(b"[ 1EB, 1exabyte, 1exabytes, 1E, 1e, 1Ei, 1EiB, 1exbibyte, 1exbibytes ]", 3 * 9)
accepted(b'a = "128K"', 2)
refused(b"a = java -Xmx 2G", 5, 9)

# ---- Limits, each met, and passed by one
# Document: 32,768 bytes
accepted(b"a=" + 32766 * b"x", 2)
refused(b"a=" + 32767 * b"x", 1, 0)
accepted(32768 * b" ", 0)
refused(32769 * b"\xff", 1, 0)
refused(b'a="' + 32765 * b"x", 4, 32768)
refused(32767 * b"\n" + b"\xc3", 2, 32767)
refused(32766 * b"#" + b"\n+", 3, 32767)
accepted(b"a=[" + 32764 * b"\n" + b"]", 2)
# Nesting: 32, the root is 1
accepted(32 * b"[" + 32 * b"]", 62)
refused(33 * b"[" + 33 * b"]", 8, 32)
refused(33 * b"[", 8, 32)
refused(32 * b"[", 4, 32)
accepted(31 * b"a={" + 31 * b"}", 62)
refused(32 * b"a={" + 32 * b"}", 8, 95)
accepted(b"{" + 31 * b"a={" + 32 * b"}", 62)
refused(b"{" + 32 * b"a={" + 33 * b"}", 8, 96)
accepted(31 * b"a{" + 31 * b"}", 62)
refused(32 * b"a{" + 32 * b"}", 8, 63)
accepted(b"a=" + 31 * b"[" + 31 * b"]", 62)
refused(b"a=" + 32 * b"[" + 32 * b"]", 8, 33)
accepted(15 * b"[{a=" + b"[{}]" + 15 * b"}]", 15 * 4 + 2)
refused(16 * b"[{a=" + b"[]", 8, 64)
accepted(31 * b"a={" + b"b=1" + 31 * b"}", 64)
accepted(31 * b"[" + b"[],[],[1]" + 31 * b"]", 60 + 6 + 2)
refused(31 * b"[" + b"[],[[]]", 8, 35)
refused(31 * b"a={" + b"b=${x}[]", 8, 99)
refused(31 * b"a={" + b"b=1 {}", 8, 97)
refused(32 * b"[" + b"${x} [1]", 8, 37)
# ... each key element after the first opens one
accepted(dotted(16) + b"={" + dotted(16) + b"=1}", 16 + 1 + 16 + 1)
refused(dotted(16) + b"={" + dotted(16) + b"={}}", 8, 31 + 2 + 31 + 1)
accepted(dotted(16) + b"={" + dotted(15) + b"={}}", 16 + 1 + 15 + 1)
refused(dotted(16) + b"={b={" + dotted(16) + b"=1}}", 8, 31 + 5 + 30)
accepted(30 * b"[" + b"{a.b=1}" + 30 * b"]", 63)
refused(30 * b"[" + b"{a.b.c=1}", 8, 35)
refused(30 * b"[" + b"{a.b.c", 8, 35)
refused(30 * b"[" + b"{a.b={}}", 8, 35)
refused(30 * b"[" + b"{a.b=[]}", 8, 35)
refused(30 * b"[" + b"{a.b{}}", 8, 34)
accepted(30 * b"[" + b"{a={}}" + 30 * b"]", 62)
refused(31 * b"[" + b"{a.b=1}", 8, 34)
refused(31 * b"a={" + b"b.c=1", 8, 95)
refused(31 * b"a={" + b"b.c.=1", 7, 93)
refused(31 * b"a={" + b'b."c"=1', 8, 95)
refused(16 * b"[" + b"{" + dotted(17) + b"=1", 8, 17 + 32)
accepted(16 * b"[" + b"{" + dotted(16) + b"=1}" + 16 * b"]", 30 + 2 + 17)
refused(17 * b"[" + b"{" + dotted(16) + b"=1", 8, 18 + 30)
refused(20 * b"[" + b"{" + dotted(17) + b"=1", 8, 21 + 24)
# Items: 2,048
accepted(1024 * b"a=1\n", 2048)
refused(1024 * b"a=1\n" + b"b=2", 8, 4096)
refused(1024 * b"a=1\n" + b"b", 8, 4096)
refused(1024 * b"a=1\n" + b"b+", 8, 4096)
refused(1024 * b"a=1\n" + b"b.", 7, 4096)
refused(1024 * b"a=1\n" + b"$", 7, 4096)
refused(1024 * b"a=1\n" + b"include", 6, 4096)
refused(1024 * b"a=1\n" + b"+", 3, 4096)
refused(1024 * b"a=1\n" + b"-", 5, 4096)
refused(1024 * b"a=1\n" + b'"', 4, 4097)
accepted(b"[" + 1024 * b"1," + b"]", 2048)
refused(b"[" + 1024 * b"1," + b"2]", 8, 2049)
refused(b"[" + 1024 * b"1," + b"-]", 8, 2049)
refused(b"[" + 1024 * b"1," + b"$]", 3, 2049)
refused(b"[" + 1024 * b"1,", 4, 2049)
refused(b"[" + 1024 * b"1," + b",]", 3, 2049)
accepted(b"[1 1," + 1022 * b"1," + b"]", 2047)
refused(b"[1 1," + 1022 * b"1," + b"1]", 8, 2049)
refused(b"[" + 1023 * b"1," + b"1 1]", 8, 2049)
accepted(b"a=" + 2047 * b"1 ", 2048)
refused(b"a=" + 2048 * b"1 ", 8, 4096)
refused(b"a=" + 2047 * b"1 " + b"-", 8, 4096)
refused(b"a=" + 2047 * b"1 " + b'"', 8, 4096)
refused(b"a=" + 2047 * b"1 " + b"${", 8, 4096)
refused(b"a=" + 2047 * b"1 " + b"$", 3, 4096)
refused(b"a=" + 2047 * b"1 " + b"{", 8, 4096)
refused(b"a=[] " + 2046 * b"1 " + b"[]", 8, 4097)
refused(b"a=[] " + 2046 * b"1 ", 11, 5)
accepted(b"a=" + 2047 * b"[]", 2048)
refused(b"a=" + 2048 * b"[]", 8, 4096)
accepted(b"a=" + 1023 * b"1${x}" + b"2", 2048, 1)
refused(b"a=" + 1023 * b"1${x}" + b"2${x}", 8, 2 + 1023 * 5 + 1)
accepted(1023 * b"a=1\n" + b"b=1", 2048)
refused(1023 * b"a=1\n" + b"b.c=1", 8, 4096)
refused(1023 * b"a=1\n" + b"b.c", 4, 4095)
refused(1023 * b"a=1\n" + b"b.c.d=1", 8, 4096)
refused(1023 * b"a=1\n" + b"b.c..d=1", 7, 4092)
refused(1023 * b"a=1\n" + dotted(17) + b"=1", 8, 4096)
refused(1023 * b"a=1\n" + b"b={c", 8, 4095)
accepted(1023 * b"a=1\n" + b"b={}", 2048)
refused(1023 * b"a=1\n" + b"b=[1", 8, 4095)
# ... of path elements, items and nesting the least place counts
accepted(b"x=1 2\n" + 1021 * b"a=1\n" + b"b.c=1", 2048)
refused(b"x=1 2\n" + 1021 * b"a=1\n" + dotted(18) + b"=1", 8, 6 + 4084 + 6)
# ... a root array and 27 more, then an object: 4 key elements are left by nesting, and 3 or 5 by items
ITEMS_LEFT_3 = b"[1 1," + 993 * b"1," + 27 * b"[" + b"{"
refused(ITEMS_LEFT_3 + dotted(17), 8, len(ITEMS_LEFT_3) + 6)
ITEMS_LEFT_5 = b"[1 1," + 992 * b"1," + 27 * b"[" + b"{"
refused(ITEMS_LEFT_5 + dotted(17), 8, len(ITEMS_LEFT_5) + 8)
accepted(ITEMS_LEFT_5 + b"a.a.a.a=1}" + 28 * b"]", 2048)
# Path elements: 16
accepted(dotted(16) + b"=1", 17)
refused(dotted(17) + b"=1", 8, 32)
refused(dotted(18) + b"=1", 8, 32)
refused(16 * b"a." + b'"a"=1', 8, 32)
refused(16 * b"a." + b'"""a"""=1', 8, 32)
refused(16 * b"a." + b" a=1", 8, 32)
refused(16 * b'"a".' + b'""=1', 8, 64)
refused(b" " + dotted(17) + b"=1", 8, 33)
refused(b"{" + dotted(17) + b"=1}", 8, 33)
accepted(b'"' + dotted(17) + b'"=1', 2)
accepted(b"a=${" + dotted(16) + b"}", 2, 1)
refused(b"a=${" + dotted(17) + b"}", 8, 36)
refused(b"a=${?" + dotted(17) + b"}", 8, 37)
refused(b"a=${ " + dotted(18) + b"}", 8, 37)
refused(b"a=${" + 16 * b"a." + b'"a"}', 8, 36)
refused(b"[${" + 16 * b"1." + b" }]", 7, 1)
accepted(b"a=${" + 15 * b"1." + b"1}", 2, 1)
refused(b"a=${x}${" + dotted(17) + b"}", 8, 40)
# Unresolved values: 256, the limit judged after the whole document, by first byte
accepted(256 * b"a=${x}\n", 512, 256)
refused(257 * b"a=${x}\n", 8, 1794)
refused(300 * b"a=${x}\n", 8, 1794)
refused(257 * b"a=${x}\n" + b"]", 3, 1799)
refused(257 * b"a=${x}\n" + b"[", 3, 1799)
refused(257 * b"a=${x}\n" + b"b=[] 1", 11, 1804)
refused(257 * b"a=${x}\n" + b"b", 4, 1800)
accepted(256 * b"a=${x}\n" + b"a=1", 514, 256)
accepted(b"[" + 256 * b"${x}," + b"]", 512, 256)
refused(b"[" + 257 * b"${x}," + b"]", 8, 1281)
accepted(b"a=" + 257 * b"${x}", 258, 1)
# ... an outer one counts from its first byte, where it ends later too
refused(b"a=${x}[" + 256 * b"${x}," + b"]", 8, 1282)
accepted(b"a=${x}[" + 255 * b"${x}," + b"]", 1 + 2 + 510, 256)
refused(b"a=[" + 256 * b"${x}," + b"]${y}", 8, 3 + 255 * 5)
refused(256 * b"a=${x}\n" + b"a=[${y}]${x}", 8, 1794)
refused(255 * b"a=${x}\n" + b"a=[${y}]${x}", 8, 1788)
accepted(254 * b"a=${x}\n" + b"a=[${y}]${x}", 508 + 5, 256)
refused(256 * b"a=${x}\n" + b"a=1 ${x}", 8, 1794)
refused(256 * b"a=${x}\n" + b"a=[1,${x}]", 8, 1797)
# The program writes the items of documents of at most 64 bytes.
accepted(b"a=" + 62 * b"x", 2)
accepted(b"a=" + 63 * b"x", 2)
accepted(b"[" + 31 * b"1," + b"]", 62)

# ---- Environment: 8,192 bytes, 64 entries, UTF-8, a name that is not empty, `=`, a text, and its only zero byte
for environment in [
    b"", b"A=\0", b"A=x\0", b"A=x\0B=y\0", b"A==\0", b"A=b=c\0", b"A=\n\0", b" = \0", b"a.b=1\0", b"A=x\0A=y\0",
    b"\xc3\xa9=\xf0\x9f\x98\x80\0",
    64 * b"A=x\0", b"".join(b"%d=\0" % i for i in range(64)), b"A=" + 8189 * b"x" + b"\0", 8190 * b"A" + b"=\0",
    b"\x01=\x7f\0",
]:
    accepted(b"a=${A}", 2, 1, environment)
for environment in [
    b"\0", b"A", b"A=", b"A=x", b"A\0", b"=\0", b"=x\0", b"A=x\0\0", b"A=x\0B", b"A=x\0B=", b"A=x\0=y\0", b"\0A=x\0",
    b"A\0=x\0", b"A=x\0B\0", b"A=x\0\0B=y\0",
    b"\xff=x\0", b"A=\xff\0", b"A=\xc3\0", b"\xc3=x\0", b"A=x\0\xed\xa0\x80=\0", b"A=\xc0\x80\0",
    65 * b"A=x\0", b"".join(b"%d=\0" % i for i in range(65)), b"A=" + 8190 * b"x" + b"\0", 8191 * b"A" + b"=\0",
    8193 * b"A",
]:
    refused(b"a=${A}", 1, 0, environment)
# 1 before all that is wrong with the document
for document in [b"", b"\xff", b"+", b"[", b'a="\\x"', b"include", b"$", dotted(17), b"a=[] 1", 33 * b"["]:
    refused(document, 1, 0, b"=\0")
refused(32769 * b"x", 1, 0, b"A=x\0")
refused(b"\xff", 2, 0, b"A=x\0")
refused(b"+", 3, 0, 64 * b"A=x\0")


def main():
    folder = pathlib.Path(__file__).parents[2] / "crates" / "test_read"
    vectors, answers = bytearray(), []
    for document, environment, answer in VECTORS:
        plain, items = plain_reader.read(document, environment)
        shown = list(plain_reader.lines(items))
        if plain != answer:
            raise SystemExit(f"{document!r} {environment!r}: by hand {answer}, by the plain reader {plain}")
        by_hand = TREES.get((document, environment), shown)
        if shown != by_hand:
            raise SystemExit(f"{document!r}: by hand {by_hand}, by the plain reader {shown}")
        for part in (document, environment):
            vectors += len(part).to_bytes(4, "big") + part
        answers.append(" ".join(map(str, answer)))
        if len(document) <= 64:
            answers += shown
    (folder / "stdin").write_bytes(vectors)
    (folder / "stdout").write_text("".join(line + "\n" for line in answers))


if __name__ == "__main__":
    main()
