#!/usr/bin/env python3
r"""Writes the vectors of resolve and check: stdin and stdout of the program crates/test_resolve.

Each vector is written from document 01 by hand, its answer too: number and place of a refusal, or the root's value as JSON.
The plain resolver beside this script has to give the same answers; the trail, and so the count and the bytes of all three
parts, are its own. Of document 01's cases and of some others the parts are written by hand as well.

    stdin   the vectors one after another, to the end of the file. A number is 4 bytes, high byte first, and a part is its
            length, a number, and then so many bytes. A vector is a number, 1 to resolve and 2 to check, and its document
            and environment, each a part. To resolve: four numbers, the budget and the lengths of the three buffers. To
            check: a sheet's trail, table and text, each a part.
    stdout  to resolve: a line 'number place' in decimal; or '0 count trail table text' with the used lengths, then, where
            the table has at most 256 bytes, a line with the three used parts in hexadecimal, an empty one as '-'; then
            a line 'check number place' with what check says of the sheet. To check: a line 'number place'.
"""

import json
import pathlib

import plain_resolver
from plain_resolver import MAX_BUDGET, MAX_ROOM, Number

FULL = (MAX_ROOM, MAX_ROOM, MAX_ROOM)
VECTORS = []


def value_of(text):
    """A value from JSON; numbers as they are written."""

    def bytes_of(value):
        if isinstance(value, str):
            return value.encode()
        if isinstance(value, list):
            return [bytes_of(member) for member in value]
        if isinstance(value, dict):
            return {key.encode(): bytes_of(member) for key, member in value.items()}
        return value

    number = lambda digits: Number(digits.encode())
    return bytes_of(json.loads(text, parse_int=number, parse_float=number))


def gives(document, value, environment=b"", budget=MAX_BUDGET, rooms=FULL, parts=None, count=None):
    VECTORS.append((document, environment, budget, rooms, (0, value_of(value) if isinstance(value, str) else value), parts, count))


def refused(document, number, place, environment=b"", budget=MAX_BUDGET, rooms=FULL):
    VECTORS.append((document, environment, budget, rooms, (number, place), None, None))


def checked(document, sheet, number, place=0, environment=b""):
    VECTORS.append((document, environment, None, sheet, (number, place), None, None))


def field(name, text):
    """A document whose one field has this value."""
    gives(b"a=" + text, '{"a":%s}' % name)


# ---- Document 01's own cases
gives(b"", "{}", parts=("", "070000", ""), count=0)
gives(b"a=1", '{"a":1}', parts=("", "07000108000000010400010001", b"a1".hex()), count=0)
gives(
    b"a=1,b=${a}", '{"a":1,"b":1}', count=1,
    parts=("0900000400000001", "07000208000100010400020001080003000104000400 01".replace(" ", ""), b"1a1b1".hex()),
)
refused(b"a=1,b=${a}", 12, 6, budget=0)
refused(b"[1,,2]", 3, 3)
gives(b"foo:{a:{c:1}},foo:${foo.a},foo:{a:2}", '{"foo":{"a":2,"c":1}}', count=1)
refused(b"a=[${a}]", 10, 3)
refused(b"a=${a}", 9, 2)
gives(b"a=${?a}foo", '{"a":"foo"}', count=1)
refused(b"bar=${foo},foo=${bar}", 10, 4)
refused(b"a=${x}", 9, 2)
gives(b"a=${x},a=1", '{"a":1}', parts=("", "07000108000000010400010001", b"a1".hex()), count=0)
refused(b"a=[1] 5", 11, 6)

# ---- The source's examples in scope, in its order. A fragment is put into a small field; what it refers to, before it.
gives(b"a = NaN", '{"a":"NaN"}')
gives(b'a = "// no # comment" // one\n# another\nb = 1 # and // one', '{"a":"// no # comment","b":1}')
refused(b"a = 1 }", 3, 6)
gives(b'"foo" {}', '{"foo":{}}')
gives(b'"foo" : {}', '{"foo":{}}')
gives(b"[1,2,3,]", "[1,2,3]")
gives(b"[1,2,3]", "[1,2,3]")
gives(b"[1\n2\n3]", "[1,2,3]")
refused(b"[1,2,3,,]", 3, 7)
refused(b"[,1,2,3]", 3, 1)
refused(b"[1,,2,3]", 3, 3)
gives(b"{a:1,b:2,}", '{"a":1,"b":2}')
gives(b"{a:1\nb:2}", '{"a":1,"b":2}')
refused(b"{a:1,b:2,,}", 3, 9)
refused(b"{,a:1}", 3, 1)
refused(b"{a:1,,b:2}", 3, 5)
gives(b"a=1,a=2", '{"a":2}')
gives(b"a={b=1,c={d=2}},a={c={e=3},b=4}", '{"a":{"b":4,"c":{"d":2,"e":3}}}')
gives(b'{\n    "foo" : { "a" : 42 },\n    "foo" : { "b" : 43 }\n}\n', '{"foo":{"a":42,"b":43}}')
gives(b'{\n    "foo" : { "a" : 42, "b" : 43 }\n}\n', '{"foo":{"a":42,"b":43}}')
gives(b'{\n    "foo" : { "a" : 42 },\n    "foo" : null,\n    "foo" : { "b" : 43 }\n}\n', '{"foo":{"b":43}}')
gives(b'{\n    "foo" : { "b" : 43 }\n}\n', '{"foo":{"b":43}}')
# Unquoted strings, and values of several pieces
gives(b"a = truefoo", '{"a":"truefoo"}')
gives(b"a = footrue", '{"a":"footrue"}')
gives(b"a = 10.0bar", '{"a":"10.0bar"}')
gives(b"a = bar10.0", '{"a":"bar10.0"}')
gives(b"a = foo bar baz", '{"a":"foo bar baz"}')
gives(b"a =  foo bar baz ", '{"a":"foo bar baz"}')
gives(b'a = "foo bar baz"', '{"a":"foo bar baz"}')
gives(b"a = foo bar", '{"a":"foo bar"}')
gives(b'a = "foo bar"', '{"a":"foo bar"}')
gives(b'[ "true", "false", "null" ]', '["true","false","null"]')
gives(b"a = true false null", '{"a":"true false null"}')
gives(b"[ 1e5, 1E5, 100000 ]", "[1e5,1E5,100000]")
gives(b"a = 1e5 1E5 100000", '{"a":"1e5 1E5 100000"}')
gives(b"[ true ]", "[true]")
gives(b"a = true foo", '{"a":"true foo"}')
gives(b'a = """foo""""', '{"a":"foo\\""}')
gives(b'a = """two\nlines \\n"""', '{"a":"two\\nlines \\\\n"}')
# Objects and arrays of several pieces
gives(b"a : { b : 1, c : 2 }", '{"a":{"b":1,"c":2}}')
gives(b"a : { b : 1 } { c : 2 }", '{"a":{"b":1,"c":2}}')
gives(b"a : { b : 1 }\na : { c : 2 }\n", '{"a":{"b":1,"c":2}}')
gives(b"a : {\nb : 1\n} {\nc : 2\n}", '{"a":{"b":1,"c":2}}')
refused(b"a : { b : 1 }\n{ c : 2 }", 3, 14)
refused(b"a : { b : 1 } [ 3, 4 ]", 11, 14)
gives(b"a : [ 1, 2, 3, 4 ]", '{"a":[1,2,3,4]}')
gives(b"a : [ 1, 2 ] [ 3, 4 ]", '{"a":[1,2,3,4]}')
gives(b"a : [ 1, 2 ]\na : ${a} [ 3, 4 ]\n", '{"a":[1,2,3,4]}', count=1)
gives(
    b"// one object\na : { b : 1, c : 2 }\n"
    b"// two objects that are merged via concatenation rules\na : { b : 1 } { c : 2 }\n"
    b"// two fields that are merged\na : { b : 1 }\na : { c : 2 }\n",
    '{"a":{"b":1,"c":2}}', count=0,
)
gives(
    b"// one array\na : [ 1, 2, 3, 4 ]\n// two arrays that are concatenated\na : [ 1, 2 ] [ 3, 4 ]\n"
    b'// a later definition referring to an earlier\n// (see "self-referential substitutions" below)\n'
    b"a : [ 1, 2 ]\na : ${a} [ 3, 4 ]\n",
    '{"a":[1,2,3,4]}', count=1,
)
gives(b"a : [\n1\n2\n] [\n3\n4\n]", '{"a":[1,2,3,4]}')
refused(b"a : [ 1, 2 ]\n[ 3, 4 ]", 3, 13)
gives(
    b'data-center-generic = { cluster-size = 6 }\ndata-center-east = ${data-center-generic} { name = "east" }\n',
    '{"data-center-generic":{"cluster-size":6},"data-center-east":{"cluster-size":6,"name":"east"}}', count=1,
)
gives(
    b"data-center-generic = { cluster-size = 6 }\n"
    b'data-center-east = ${data-center-generic} { cluster-size = 9, name = "east" }\n',
    '{"data-center-generic":{"cluster-size":6},"data-center-east":{"cluster-size":9,"name":"east"}}', count=1,
)
gives(b"path = [ /bin ]\npath = ${path} [ /usr/bin ]\n", '{"path":["/bin","/usr/bin"]}', count=1)
gives(b"[ 1 2 3 4 ]", '["1 2 3 4"]')
gives(b"[ 1\n  2\n  3\n  4 ]", "[1,2,3,4]")
gives(b"[ [ 1, 2 ] [ 3, 4 ] ]", "[[1,2,3,4]]")
gives(b"[ [ 1, 2 ]\n  [ 3, 4 ] ]", "[[1,2],[3,4]]")
gives(
    b"a = [ This is an unquoted string my name is ${name}, Hello ${world} ]\nname = Ann, world = all",
    '{"a":["This is an unquoted string my name is Ann","Hello all"],"name":"Ann","world":"all"}', count=2,
)
gives(b"c = [ ${a} ${b}, ${x} ${y} ], a = 1, b = 2, x = 3, y = 4", '{"c":["1 2","3 4"],"a":1,"b":2,"x":3,"y":4}', count=2)
# Paths as keys
gives(b"{ foo.bar : 42 }", '{"foo":{"bar":42}}')
gives(b'foo.bar."hello.world" : 42', '{"foo":{"bar":{"hello.world":42}}}')
gives(b"10.0foo : 42", '{"10":{"0foo":42}}')
gives(b"foo10.0 : 42", '{"foo10":{"0":42}}')
gives(b'foo"10.0" : 42', '{"foo10.0":42}')
gives(b"1.2.3 : 42", '{"1":{"2":{"3":42}}}')
gives(b'a."".b : 42', '{"a":{"":{"b":42}}}')
gives(b'"true" : 42', '{"true":42}')
gives(b'"3" : 42', '{"3":42}')
gives(b"3 : 42", '{"3":42}')
gives(b"3.14 : 42", '{"3":{"14":42}}')
gives(b"foo.bar : 42", '{"foo":{"bar":42}}')
gives(b"foo { bar : 42 }", '{"foo":{"bar":42}}')
refused(b"a..b : 42", 7, 0)
refused(b".a : 42", 7, 0)
refused(b"a. : 42", 7, 0)
gives(b'"3" : { "14" : 42 }', '{"3":{"14":42}}')
gives(b"foo.bar.baz : 42", '{"foo":{"bar":{"baz":42}}}')
gives(b"foo { bar { baz : 42 } }", '{"foo":{"bar":{"baz":42}}}')
gives(b"a.x : 42, a.y : 43", '{"a":{"x":42,"y":43}}')
gives(b"a { x : 42, y : 43 }", '{"a":{"x":42,"y":43}}')
gives(b"a b c : 42", '{"a b c":42}')
gives(b'"a b c" : 42', '{"a b c":42}')
gives(b"true : 42", '{"true":42}')
# ... and in substitutions
gives(b"foo.bar=1,a = ${foo.bar}", '{"foo":{"bar":1},"a":1}')
gives(b'foo.bar."hello.world"=1,a = ${foo.bar."hello.world"}', '{"foo":{"bar":{"hello.world":1}},"a":1}')
gives(b"10.0foo=1,a = ${10.0foo}", '{"10":{"0foo":1},"a":1}')
gives(b"foo10.0=1,a = ${foo10.0}", '{"foo10":{"0":1},"a":1}')
gives(b'foo"10.0"=1,a = ${foo"10.0"}', '{"foo10.0":1,"a":1}')
gives(b"1.2.3=1,a = ${1.2.3}", '{"1":{"2":{"3":1}},"a":1}')
gives(b"true=1,a = ${true}", '{"true":1,"a":1}')
gives(b'b."".b=1,a = ${b."".b}', '{"b":{"":{"b":1}},"a":1}')
# Substitutions: with a value, required, optional, in a text, in quotes
gives(b"pathexpression=1,a = ${pathexpression}", '{"pathexpression":1,"a":1}')
refused(b"a = ${pathexpression}", 9, 4)
gives(b"a = ${?pathexpression}", "{}", count=1)
gives(
    b"animal.favorite=cat,key : ${animal.favorite} is my favorite animal",
    '{"animal":{"favorite":"cat"},"key":"cat is my favorite animal"}',
)
gives(
    b'animal.favorite=cat,key : ${animal.favorite}" is my favorite animal"',
    '{"animal":{"favorite":"cat"},"key":"cat is my favorite animal"}',
)
gives(b'key : "${animal.favorite} is my favorite animal"', '{"key":"${animal.favorite} is my favorite animal"}')
gives(b'{ "HOME" : null, a : ${HOME} }', '{"HOME":null,"a":null}', b"HOME=/home\0")
gives(b"a = ${HOME}", '{"a":"/home"}', b"HOME=/home\0")
gives(b"foo : ${?bar}", "{}")
gives(b"foo : ${?bar}${?baz}", "{}")
gives(b"[ ${?foo} ]", "[]")
gives(b"a = [ ${?foo}, 1 ]", '{"a":[1]}')
gives(b"foo : 1, foo : ${?bar}", '{"foo":1}')
gives(b"foo : ${?bar}${?baz}, baz : 1", '{"foo":"1","baz":1}')
gives(b"a = b${?foo}c", '{"a":"bc"}')
refused(b"a = ${foo.${bar}}", 3, 10)
refused(b"${foo} : 42", 7, 0)
refused(b"a = ${ ?foo}", 3, 7)
gives(b"a = [1] ${?foo} [2]", '{"a":[1,2]}')
gives(b"a = {b=1} ${?foo}", '{"a":{"b":1}}')
# A field that refers to itself
gives(b'path : "a:b:c"\npath : ${path}":d"', '{"path":"a:b:c:d"}', count=1)
refused(b"a : ${a}", 9, 4)
refused(b"a : ${a}bc", 9, 4)
refused(b"path : ${path} [ /usr/bin ]", 9, 7)
refused(b"a : { b : ${a} }", 10, 10)
refused(b"a : [${a}]", 10, 5)
gives(b"a={ x : 42, y : ${a.x} }", '{"a":{"x":42,"y":42}}')
gives(b"a = ${?a} [b]", '{"a":["b"]}')
gives(b"a = []\na = ${a} [b]", '{"a":["b"]}')
refused(b"foo : ${foo} // an error", 9, 6)
gives(b"foo : { a : 1 }", '{"foo":{"a":1}}')
gives(b"foo : { a : 1 }\nfoo : ${foo}", '{"foo":{"a":1}}')
refused(b"foo : ${foo}\nfoo : { a : 1 }", 9, 6)
gives(b"foo : ${?foo} // this field just disappears silently", "{}")
gives(b"foo : ${does-not-exist}\nfoo : 42", '{"foo":42}', count=0)
gives(b"foo : ${foo}, foo : 42", '{"foo":42}', count=0)
gives(b"foo : { a : { c : 1 } }\nfoo : ${foo.a}\nfoo : { a : 2 }\n", '{"foo":{"a":2,"c":1}}')
gives(b"bar : { foo : 42,\n        baz : ${bar.foo}\n      }\n", '{"bar":{"foo":42,"baz":42}}')
gives(b"bar : { foo : 42,\n        baz : ${bar.foo}\n      }\nbar : { foo : 43 }\n", '{"bar":{"foo":43,"baz":43}}')
gives(
    b"bar : { a : ${foo.d}, b : 1 }\nbar.b = 3\nfoo : { c : ${bar.b}, d : 2 }\nfoo.d = 4\n",
    '{"bar":{"a":4,"b":3},"foo":{"c":3,"d":4}}', count=2,
)
gives(b"a = ${?a}foo\n", '{"a":"foo"}')
refused(b"bar : ${foo}\nfoo : ${bar}\n", 10, 6)
refused(b"a : ${b}\nb : ${c}\nc : ${a}\n", 10, 4)
refused(b"a : 1\nb : 2\na : ${b}\nb : ${a}\n", 10, 16)
# Objects that are merged
gives(b"{ a : { x : 1 } }", '{"a":{"x":1}}')
gives(b"a={ x : 1 },a=42,a={ y : 2 }", '{"a":{"y":2}}')
gives(b"a={ x : 1 },a={ y : 2 },a=42", '{"a":42}')
gives(b"a={ x : 1 },a={ y : 2 }", '{"a":{"x":1,"y":2}}')
gives(b"[ { a : { x : 1 } }, { a : 42 }, { a : { y : 2 } } ]", '[{"a":{"x":1}},{"a":42},{"a":{"y":2}}]')
# Keys, words, units: text as it is written
gives(b"hyphen-separated : 42", '{"hyphen-separated":42}')
gives(b"camelCase : 42", '{"camelCase":42}')
gives(b"[true, yes, on, false, no, off]", '[true,"yes","on",false,"no","off"]')
gives(b'[ "true", "yes", "on", "false", "no", "off" ]', '["true","yes","on","false","no","off"]')
gives(b"[ ns, us, ms, s, m, h, d ]", '["ns","us","ms","s","m","h","d"]')
gives(b"[ 10 seconds, 1EB, 1e, 128K ]", '["10 seconds","1EB","1e","128K"]')
gives(b'a = "128K"', '{"a":"128K"}')
# Whitespace, by Unicode's categories Zs, Zl and Zp, and a byte order mark: outer is dropped, that inside a key or between
# simple pieces kept, and none of it is a newline.
for space in "\u00a0\u1680\u2000\u2001\u2002\u2003\u2004\u2005\u2006\u2007\u2008\u2009\u200a\u2028\u2029\u202f\u205f\u3000\ufeff":
    written, size = space.encode(), len(space.encode())
    gives(written + b"{ a : 1 }", '{"a":1}')
    gives(b"a" + written + b"=" + written + b"1" + written, '{"a":1}')
    gives(b"a=1" + written + b"2", '{"a":"1%s2"}' % space)
    gives(b"a" + written + b"b=1", '{"a%sb":1}' % space)
    gives(b"x=1,a=${?" + written + b"x" + written + b"}", '{"x":1,"a":1}')
    gives(b"x=1,a=${x}" + written + b"${x}" + written, '{"x":1,"a":"1%s1"}' % space)
    gives(b"a=${?x}" + written + b"b" + written + b"${?x}", '{"a":"%sb%s"}' % (space, space))
    gives(b"x=[1],a=${x}" + written + b"[2]", '{"x":[1],"a":[1,2]}')
    gives(b"a" + written + b"b=1,c=${a" + written + b"b}", '{"a%sb":1,"c":1}' % space)
    gives(b'a="' + written + b'"', '{"a":"%s"}' % space)
    gives(b"#" + written + b"a=1", "{}")
    gives(b"a=${" + written + b"E" + written + b"}", '{"a":"v"}', b"E=v\0")
    refused(b"a=1" + written + b"b=2", 3, 4 + size)
    refused(b"x=1,a=${" + written + b"?x}", 3, 8 + size)
    refused(b"a=" + written + b"${x}", 9, 2 + size)
    refused(b"a=[1]" + written + b"5", 11, 5 + size)
for ordinary in "\u0085\u180e\u200b\u200c\u2060":
    gives(b"a" + ordinary.encode() + b"=1", '{"a%s":1}' % ordinary)
    gives(ordinary.encode() + b"{ a : 1 }", '{"%s":{"a":1}}' % ordinary)
    gives(b"a=1" + ordinary.encode(), '{"a":"1%s"}' % ordinary)
refused(b'include "foo.conf"\n', 6, 0)
refused(b"path += /usr/bin", 3, 5)

# ---- Readings, by the numbers that docs/DECISIONS.md gives them: those of reading are among the reader's vectors too
refused(b"a=[1] 5 $x", 11, 6)
refused(b"a=[1] 5 -x", 5, 8)
refused(b"a=${include}", 9, 2)
refused(b'include"s"=1', 6, 0)
refused(b'a="\\ud800\\ud8', 4, 13)
refused(b'a="\\\n"', 5, 3)
refused(b"a $", 7, 2)
refused(b"a=[${x}] 5,a=1", 11, 9)
refused(b"a={b=1}c=2", 11, 7)
refused(b"a=${x}[" + 256 * b"${x}," + b"]", 8, 1282)
refused(b"a..b.c=1", 7, 0)
refused(b"a=${a..:}", 3, 7)
gives(b"a=2020-01-01", '{"a":"2020-01-01"}')
gives(b"a=truefalse", '{"a":"truefalse"}')
gives(b'a="""""""', '{"a":"\\""}')
gives(b'a=${?"""x\ny"""}', "{}")
gives(b"a\n#\n:\n1\n,\nb=2", '{"a":1,"b":2}')
gives(b"a . b=1", '{"a ":{" b":1}}')
gives(b"b=1,a=${? b }", '{"b":1,"a":1}')
gives(b'a."".b=1', '{"a":{"":{"b":1}}}')
refused(b"a=${" + b".".join(17 * [b"x"]) + b"}", 8, 4 + 32)
# Whitespace beside an undefined piece stays; one or several goes by pieces as written.
gives(b"a=${?x} b", '{"a":" b"}')
gives(b"a=b ${?x}", '{"a":"b "}')
gives(b"a=${?x} ${?x}\tb ${?x}  ${?x}c", '{"a":" \\tb   c"}')
gives(b"a=${?x} [1]", '{"a":[1]}')
gives(b"b=1,a=${?x}${b}", '{"b":1,"a":"1"}')
gives(b"b=1,a=${b}", '{"b":1,"a":1}')
gives(b"b=null,c=false,d=true,a=${b}${c} ${d}", '{"b":null,"c":false,"d":true,"a":"nullfalse true"}')
# Object pieces are worked out to finished values first, and then merge.
refused(b"a=${?n}{b=${x}}{b=1}", 9, 10)
gives(b"a=${?u}{x=${?u}}{y=1}{x=2}", '{"a":{"y":1,"x":2}}')
gives(b"b={x={p=1},y=2},a=${b}{x={q=3},z=4}{x={p=5}}", '{"b":{"x":{"p":1},"y":2},"a":{"x":{"p":5,"q":3},"y":2,"z":4}}')
gives(b"b={x={p=1}},a=${b}{x=1}{x={q=2}}", '{"b":{"x":{"p":1}},"a":{"x":{"q":2}}}')
# Closed objects are roots of their own; literals in them merge; nothing in them looks back.
gives(b"[{a={b=1},a={c=2}}]", '[{"a":{"b":1,"c":2}}]')
refused(b"[{a=1,a=${a}}]", 9, 8)
gives(b"a={b=1}{b=${a.b}2}", '{"a":{"b":"12"}}')
# An undefined field still fixes its key's place, but not through an answer.
gives(b"b=${?u},a=1,b=2", '{"b":2,"a":1}')
gives(b"c={b=${?u},a=1},d=${c}{b=2}", '{"c":{"a":1},"d":{"a":1,"b":2}}')
gives(b"a={b=${?u}}", '{"a":{}}')
gives(b"a=[${?u}]", '{"a":[]}')
# The environment is asked whenever the value is undefined; the first of equal names counts; an empty text is a string.
gives(b'a=${"a.b"},c=${a.b}', '{"a":"x","c":"x"}', b"a.b=x\0")
gives(b"a=5,b=${a.x}", '{"a":5,"b":"e"}', b"a.x=e\0")
gives(b"a=${?u},b=${a}", '{"b":"e"}', b"a=e\0")
gives(b"a=${a}1", '{"a":"e1"}', b"a=e\0")
gives(b"[${x}]", '["y"]', b"x=y\0x=z\0")
gives(b"a=${x}", '{"a":""}', b"x=\0")
gives(b"a=${x}", '{"a":"b=c"}', b"x=b=c\0")
# A path through an unresolved value needs its whole answer.
refused(b"a={b=1,c=${d.b}},d=${a}", 10, 9)
refused(b"a={b=${a.c},c=1},a=${a}{d=2}", 10, 19)
# Laziness: the walk ends at the first non-object; arrays that are only passed over are not worked out.
gives(b"a={b=1},a=${q},a={b=2},c=${a.b},q={b={}}", '{"a":{"b":2},"c":2,"q":{"b":{}}}')
refused(b"a=${nowhere},a={b={c=1}},d=${a.b}", 9, 2)
gives(b"a=[${nowhere}],a=1", '{"a":1}', count=0)
# A look-back sees the fields before its own that have the same path, and no others, wherever these stand.
gives(b"x=0,l=[1],y=0,l=${l}[2],z=0,l=${l}[3]", '{"x":0,"l":[1,2,3],"y":0,"z":0}', count=2)
gives(b"l=${l}1,l=2", '{"l":2}', count=0)
gives(b"l=${?l}1,l=${l}2", '{"l":"12"}', count=2)
gives(b"l=1,m=${l},l=${l}2,l=${l}3", '{"l":"123","m":"123"}', count=3)
gives(b'l=1,"l"=${l}2', '{"l":"12"}')
gives(b'"a.b"=1,"a.b"=${"a.b"}2,a.b=3', '{"a.b":"12","a":{"b":3}}')
gives(b"a.b=1,a.c=2,a.b=${a.b}3,a.d=${a.b}", '{"a":{"b":"13","c":2,"d":"13"}}')
gives(b"a={b=1},a=${a.b}2", '{"a":"12"}')
refused(b"a.b=1,a.c=${a}", 10, 10)
gives(b"o={l=1},l=2,o={l=${l}3}", '{"o":{"l":"23"},"l":2}')
gives(b"o={l=1,k=0,l=${o.l}2,l=${o.l}3}", '{"o":{"l":"123","k":0}}')
gives(b"o={l=1},k=0,o={l=${o.l}2},o={l=${o.l}3}", '{"o":{"l":"123"},"k":0}')
gives(b"o={l=1},o={l=${o.l}2},o={m=0}", '{"o":{"l":"12","m":0}}')
# A look-back goes down from the field's own place whatever stands above it.
gives(b"a.b=1,a.b=${a.b}2,a.b=${a.b}3", '{"a":{"b":"123"}}')
gives(b"a={b=1},a=5,a={b=${?a.b}2}", '{"a":{"b":"2"}}')
gives(b"a={b={c=1}},a={b=${a.b}{d=2}}", '{"a":{"b":{"c":1,"d":2}}}')
gives(b"a={b={c=1}},a={b=${a.b.c}}", '{"a":{"b":1}}')
# A name's value is not taken when it is first read; a field inside an object does not need all of it.
gives(b"b=${a},a=1,a=2", '{"b":2,"a":2}')
gives(b"a=${b}{x=1},b={y=${c}},c=3", '{"a":{"y":3,"x":1},"b":{"y":3},"c":3}')
# Kinds mixed while resolving: the first piece unlike the first defined one
refused(b"b=[],a=${b}1", 11, 11)
refused(b"b=1,a=${?x}${b}[1]", 11, 15)
refused(b"b={},a=${b}[1]", 11, 11)
refused(b"b=[],a=[1]{}${b}", 11, 10)
refused(b"b=1,a={}${b}", 11, 8)
# 12 only where one more would begin; 10 before 12
gives(b"a=${b},b=${c},c=1", '{"a":1,"b":1,"c":1}', budget=2, count=2)
refused(b"a=${b},b=${c},c=1", 12, 9, budget=1)
refused(b"a=${b},b=${a}", 10, 2, budget=2)
refused(b"a=${b},b=${a}", 12, 9, budget=1)
refused(b"a=1", 1, 0, budget=257)
refused(b"a=1", 1, 0, budget=0xFFFFFFFF)

# ---- Limits, each met, and passed by one
# document and environment
gives(b"#" + 32767 * b"x", "{}")
refused(32769 * b"#", 1, 0)
gives(b"a=${?A}", {b"a": 8189 * b"x"}, b"A=" + 8189 * b"x" + b"\0")
refused(b"a=${?A}", 1, 0, b"A=" + 8190 * b"x" + b"\0")
gives(b"a=${?A}", '{"a":"x"}', 64 * b"A=x\0")
refused(b"a=${?A}", 1, 0, 65 * b"A=x\0")
# budget
many = b"".join(b"k%d=${v}\n" % i for i in range(256)) + b"v=1"
all_of_them = {**{b"k%d" % i: Number(b"1") for i in range(256)}, b"v": Number(b"1")}
gives(many, all_of_them, budget=256, count=256)
refused(many, 12, many.index(b"k255=") + 5, budget=255)
# unresolved values, nesting, items, path elements
refused(many + b"\nw=${v}", 8, len(many) + 3)
gives(32 * b"[" + 32 * b"]", 31 * "[" + "[]" + 31 * "]")
refused(33 * b"[" + 33 * b"]", 8, 32)
gives(b"[" + 1024 * b"1," + b"]", "[" + ",".join(1024 * ["1"]) + "]")
refused(b"[" + 1024 * b"1," + b"2]", 8, 2049)
path = b".".join(16 * [b"x"])
deep = Number(b"1")
for _ in range(16):
    deep = {b"x": deep}
gives(path + b"=1,y=${" + path + b"}", {**deep, b"y": Number(b"1")})
refused(path + b".x=1", 8, 32)
# What an answer may be, and is not in the table: the field's last value looks back at it, finds no member, and is 5.
def hidden(value):
    return b"a=" + value + b"\na=${?a.nothing}5\n"


# nesting: an array in the table has 31, an answer 32
nested, arrays = 31 * b"[" + 31 * b"]", []
for _ in range(30):
    arrays = [arrays]
gives(b"b=" + nested + b",a=${b}", {b"b": arrays, b"a": arrays})
gives(hidden(b"${?x}[${b}]") + b"b=" + nested, {b"a": b"5", b"b": arrays}, count=3)
refused(b"b=" + nested + b",a=${?x}[${b}]", 13, 0)
refused(hidden(b"${?x}[[${b}]]") + b"b=" + nested, 13, 0)
# the text of a piece, of a join, of an answer; and of the table, whose keys count too
gives(hidden(b'${?x}"' + 16384 * b"x" + b'"'), '{"a":"5"}', count=2)
refused(hidden(b'${?x}"' + 16385 * b"x" + b'"'), 13, 0)
refused(hidden(b'[${?x}]${?x}["' + 16385 * b"x" + b'"]'), 13, 0)
gives(hidden(b'${?x}"' + 10000 * b"x" + b'""' + 6384 * b"x" + b'"'), '{"a":"5"}', count=2)
refused(hidden(b'${?x}"' + 10000 * b"x" + b'""' + 6385 * b"x" + b'"'), 13, 0)
gives(hidden(b'${?x}"' + 16382 * b"x" + b'"  ${?x}'), '{"a":"5"}', count=2)
refused(hidden(b'${?x}"' + 16383 * b"x" + b'"  ${?x}'), 13, 0)
gives(b'a="' + 16383 * b"x" + b'"', {b"a": 16383 * b"x"}, count=0)
refused(b'a="' + 16384 * b"x" + b'"', 13, 0)
gives(b'a=${?x}"' + 16383 * b"x" + b'"', {b"a": 16383 * b"x"}, count=1)
refused(b'a=${?x}"' + 16384 * b"x" + b'"', 13, 0)
# the records: an array of n nulls has 3 + n, in the table behind a head and a key of 8
nulls = b"n=[" + 500 * b"null," + b"]\n"
many_nulls = lambda count: (count // 500) * b"${n}" + b"[" + count % 500 * b"null," + b"]"
gives(nulls + hidden(many_nulls(16381)), {b"n": 500 * [None], b"a": b"5"}, count=2)
refused(nulls + hidden(many_nulls(16382)), 13, 0)
refused(nulls + hidden(33 * b"${n}"), 13, 0)
# ... of one piece: 32 arrays of 503 bytes and 285 nulls behind a head of 3
gives(nulls + hidden(b"${?x}[" + 32 * b"${n}," + 285 * b"null," + b"]"), {b"n": 500 * [None], b"a": b"5"}, count=34)
refused(nulls + hidden(b"${?x}[" + 32 * b"${n}," + 286 * b"null," + b"]"), 13, 0)
refused(nulls + hidden(b"[${?x}]${?x}[" + 33 * b"${n}," + b"]"), 13, 0)
gives(nulls + b"n=" + many_nulls(16373), {b"n": 16373 * [None]}, count=1)
refused(nulls + b"n=" + many_nulls(16374), 13, 0)
# the merge of two objects: 91 members of 181 bytes each are over the text's size together
fields = lambda first, count: b"".join(b"k%03d=%s\n" % (i, 177 * b"x") for i in range(first, first + count))
values = lambda first, count: {b"k%03d" % i: 177 * b"x" for i in range(first, first + count)}
gives(hidden(b"${?x}{" + fields(0, 45) + b"}{" + fields(45, 45) + b"}"), '{"a":"5"}', count=2)
refused(hidden(b"${?x}{" + fields(0, 45) + b"}{" + fields(45, 46) + b"}"), 13, 0)
gives(hidden(b"${?x}{" + fields(0, 45) + b"}{" + fields(44, 46) + b"}"), '{"a":"5"}', count=2)
gives(b"a=${?x}{" + fields(0, 45) + b"}{" + fields(40, 49) + b"}", {b"a": values(0, 89)}, count=1)
# rooms: each exactly full, and one byte short
sheet = b"a=1,b=${a}"
for rooms in [(8, 23, 5), (8, 23, 32768), (9, 24, 6), (40000, 40000, 40000)]:
    gives(sheet, '{"a":1,"b":1}', rooms=rooms)
for rooms in [(7, 23, 5), (8, 22, 5), (8, 23, 4), (0, 23, 5), (8, 0, 5), (8, 23, 0), (0, 0, 0)]:
    refused(sheet, 14, 0, rooms=rooms)
gives(b"a=1", '{"a":1}', rooms=(0, 13, 2))
refused(b"a=${x}", 9, 2, rooms=(0, 0, 0))
# 14 of an entry is given when it is answered, before anything later; 13 before 14
refused(b"a=1,b=${a},c=${x}", 14, 0, rooms=(7, 100, 100))
refused(b'a="' + 16384 * b"x" + b'"', 13, 0, rooms=(0, 0, 0))

# ---- Check
one = b"a=1,b=${a}"
trail, table, text = bytes.fromhex("0900000400000001"), bytes.fromhex("0700020800010001040002000108000300010400040001"), b"1a1b1"
checked(one, (trail, table, text), 0)
for other in [
    (b"", table, text), (trail + trail, table, text), (trail[:-1], table, text), (trail, table[:-1], text), (trail, table, text[:-1]),
    (trail + b"\0", table, text), (trail, table + b"\0", text), (trail, table, text + b"\0"), (b"", b"", b""),
    (bytes([10]) + trail[1:], table, text), (bytes([10, 0, 0]), table, text), (b"\x09\x00\x01" + trail[3:], table, text),
    (trail[:3] + b"\x05" + trail[4:], table, text), (trail, table, b"1a1b2"), (trail, table, b"2a1b1"),
    (trail, table.replace(b"\x08\x00\x03", b"\x08\x00\x01"), text),
]:
    checked(one, other, 17)
# A needless entry is fine if right, a hidden one's too; in check a reading 11 is 11 and a resolving one 17.
hidden = b"c=${d},c=1,d=2"
checked(hidden, (b"", bytes.fromhex("07000208000000010400010001080002000104000300 01".replace(" ", "")), b"c1d2"), 0)
checked(
    hidden,
    (trail[:3] + b"\x04\0\0\0\x01", bytes.fromhex("0700020800010001040002000108000300010400040001"), b"2c1d2"), 0,
)
checked(
    hidden,
    (trail[:3] + b"\x04\0\0\0\x01", bytes.fromhex("0700020800010001040002000108000300010400040001"), b"3c1d2"), 17,
)
checked(b"a=[1] 5", (b"", b"", b""), 11, 6)
checked(b"b=[],a=${b}1", (b"", b"", b""), 17)
checked(b"[1,,2]", (b"", b"", b""), 3, 3)
checked(b"a=${a}", (b"", b"\x07\0\0", b""), 17)
# Number 1 of a lent part comes before 2 to 8 of the document.
for lent in [(32769 * b"\0", b"", b""), (b"", 32769 * b"\0", b""), (b"", b"", 32769 * b"\0")]:
    checked(b"[1,,2]", lent, 1)
    checked(b"\xff", lent, 1)
checked(b"\xff", (32768 * b"\0", 32768 * b"\0", 32768 * b"\0"), 2)
checked(b"", (b"", b"\x07\0\0", b""), 0)
checked(b"", (b"", b"\x07\0\0", b""), 1, environment=b"x")
# Entries in another order, each after those that it needs: a and c need b.
order = b"a=${b},b=${d},c=${b},d=1"
entry = lambda number, at: b"\x09" + number.to_bytes(2, "big") + b"\x04" + at.to_bytes(2, "big") + b"\0\x01"
members = lambda at: b"\x07\0\x04" + b"".join(
    b"\x08" + (at + 2 * i).to_bytes(2, "big") + b"\0\x01\x04" + (at + 2 * i + 1).to_bytes(2, "big") + b"\0\x01" for i in range(4)
)
for entered, number in [((1, 0, 2), 0), ((1, 2, 0), 0), ((0, 1, 2), 17), ((1, 0), 17), ((1, 1, 0, 2), 17), ((2, 1, 0), 17), ((1, 0, 2, 3), 17)]:
    entries = b"".join(entry(b, i) for i, b in enumerate(entered))
    checked(order, (entries, members(len(entered)), len(entered) * b"1" + b"a1b1c1d1"), number)


def numbers(*numbers):
    return b"".join(number.to_bytes(4, "big") for number in numbers)


def part(content):
    return numbers(len(content)) + content


def resolved_lines(vector):
    document, environment, budget, rooms, answer, parts, count = vector
    plain, value, sheet = plain_resolver.resolve(document, environment, budget, rooms)
    said = (0, value) if plain[0] == 0 else plain
    if said != answer or plain_kinds(said[1]) != plain_kinds(answer[1]):
        raise SystemExit(f"{document[:200]!r} {environment[:100]!r}: by hand {answer}, by the plain resolver {said}")
    if plain[0] != 0:
        return [f"{plain[0]} {plain[1]}"]
    if parts is not None and parts != tuple(part.hex() for part in sheet) or count not in (None, plain[1]):
        raise SystemExit(f"{document!r}: by hand {parts}, {count}; by the plain resolver {sheet}, {plain[1]}")
    lines = [" ".join(map(str, (0, plain[1], *map(len, sheet))))]
    if len(sheet[1]) <= 256:
        lines.append(" ".join(part.hex() or "-" for part in sheet))
    return lines + ["check 0 0"]


def plain_kinds(value):
    """What equality in Python does not tell apart: numbers from strings, truth values from numbers, the order of keys."""
    if isinstance(value, list):
        return [plain_kinds(member) for member in value]
    if isinstance(value, dict):
        return [(key, plain_kinds(member)) for key, member in value.items()]
    return type(value)


def write():
    folder = pathlib.Path(__file__).parents[2] / "crates" / "test_resolve"
    vectors, answers = bytearray(), []
    for vector in VECTORS:
        document, environment, budget, rest, answer, _, _ = vector
        if budget is None:
            vectors += numbers(2) + b"".join(map(part, (document, environment, *rest)))
            answers.append(" ".join(map(str, answer)))
        else:
            vectors += numbers(1) + part(document) + part(environment) + numbers(budget, *rest)
            answers += resolved_lines(vector)
    (folder / "stdin").write_bytes(vectors)
    (folder / "stdout").write_text("".join(line + "\n" for line in answers))
    print(f"{len(VECTORS)} vectors")


if __name__ == "__main__":
    plain_resolver.with_stack(write)
