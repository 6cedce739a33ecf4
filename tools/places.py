#!/usr/bin/env python3
"""Counts, in crates/*/src, the places that docs/DESIGN-PASS.md speaks of, point by point, and with -v lists them.
usage: tools/places.py [-v] [POINT ..]"""
import collections
import glob
import re
import sys

os_args = sys.argv[1:]
verbose = "-v" in os_args
points = [int(it) for it in os_args if it.isdigit()] or [1, 2, 3, 4, 5, 6, 7, 8]
files = {}
for path in sorted(glob.glob("crates/*/src/**/*.rt", recursive=True)):
    with open(path, encoding="utf-8") as it:
        # (comments and strings say nothing of forms)
        files[path] = re.sub(r"//[^\n]*", "", it.read())


def tell(name, places):
    print(f"{name}: {len(places)}")
    if verbose:
        for it in places:
            print(f"    {it}")


def closed(text, at):
    """Returns the end of the braces that open at a place."""
    depth = 0
    for i in range(at, len(text)):
        depth += {"{": 1, "}": -1}.get(text[i], 0)
        if not depth:
            return i + 1
    return len(text)


def enums(text):
    for it in re.finditer(r"^ *(?:pub )?enum (\w+)[^{]*\{", text, re.M):
        inside = text[it.end() : closed(text, it.end() - 1) - 1]
        flat = re.sub(r"\([^()]*\)|\{[^{}]*\}", "()", inside)
        yield it.group(1), [v.strip() for v in flat.split(",") if v.strip()], inside


def functions(text):
    """Yields each function: its name, its parameters, its clauses and its body."""
    for it in re.finditer(r"^ *(?:pub )?(?:const )?(?:extern \"C\" )?fn (\w+)", text, re.M):
        body = re.search(r"^ *\{$|\{\n", text[it.end() :], re.M)
        # the body's brace stands alone in its line where there are clauses
        lines = text[it.end() :]
        alone = re.search(r"^ *\{\n", lines, re.M)
        same = re.search(r"\) *(?:-> *[^\n{]+)?\{\n", lines)
        start = min((m.end() - 2 for m in (alone, same) if m), default=None)
        if start is None:
            continue
        head = lines[:start]
        end = closed(lines, start)
        yield it.group(1), head, lines[start:end]


def one():
    shape, result = [], []
    for path, text in files.items():
        for name, variants, inside in enums(text):
            if re.search(r"\b(Refused|Excess|Trailing|Broken|Mixed|TooLarge|NoRoom)\b", inside):
                result.append(f"{path}: {name} {variants}")
            elif len(variants) == 2 and sum(v.endswith("()") for v in variants) == 1:
                shape.append(f"{path}: {name} {variants}")
    numbers = [
        f"{path}: {it.group(0)}" for path, text in files.items() for it in re.finditer(r"\b(?:number|kind|edition): u(?:8|size)\b", text)
    ]
    tell("1 own enums of Option's shape (two variants, one without a value)", shape)
    tell("1 own enums of Result's shape (a variant for a refusal)", result)
    tell("1 numbers for kinds and refusals (fields and parameters)", numbers)


def two():
    groups = collections.defaultdict(list)
    keep = set("if else while loop for in match let mut return fn true false as u8 u16 u32 u64 usize bool len self".split())
    for path, text in files.items():
        for name, head, body in functions(text):
            if body.count("\n") < 4:
                continue
            names, out = {}, []
            for token in re.findall(r"\w+|[^\s\w]", body):
                out.append(token if token in keep or not re.match(r"\w", token) else names.setdefault(token, f"#{len(names)}"))
            groups[" ".join(out)].append(f"{path}: {name}")
    twins = [" = ".join(it) for it in groups.values() if len(it) > 1]
    tell("2 bodies that are equal but for their names (of four lines and more)", twins)


def three():
    by_hand, other = [], []
    for path, text in files.items():
        for it in re.finditer(r"^( *)(while|loop)\b([^\n]*)\{\n", text, re.M):
            body = text[it.end() : closed(text, it.end() - 2)]
            test = re.search(r"\b(\w+) (?:<|<=|!=|>) |0 < (\w+)", it.group(3))
            names = {n for n in (test.groups() if test else ()) if n}
            counts = any(re.search(rf"\b{n} [+-]= 1;", body) for n in names) or (
                it.group(2) == "loop" and re.search(r"\b\w+ [+-]= 1;", body)
            )
            (by_hand if counts else other).append(f"{path}: {it.group(2)}{it.group(3).rstrip()}")
    tell("3 loops that count an index by hand", by_hand)
    tell("3 other while and loop (steps of any size)", other)


def four():
    equal = [f"{path}: {name}" for path, text in files.items() for name, head, body in functions(text) if re.match(r"same_|is_same|equal|compare", name)]
    copied = []
    for path, text in files.items():
        for name, head, body in functions(text):
            for it in re.finditer(r"\b([A-Z]\w+) \{([^{}]*)\}", body):
                fields = [f.strip() for f in it.group(2).split(",") if f.strip()]
                plain = [f for f in fields if re.match(r"^\w+$|^\w+: \w+\.\w+$", f)]
                taken = [f for f in plain if re.search(rf"let {f.split(':')[-1].strip()} = \w+\.\w+;", body) or re.search(r": \w+\.\w+$", f)]
                if len(taken) > 1:
                    copied.append(f"{path}: {name} {it.group(1)} {taken}")
    turned = [f"{path}: {name}" for path, text in files.items() for name, head, body in functions(text) if re.search(r"_of$|^to_|^from_", name) and re.search(r"\bmatch \w+ \{", body)]
    tell("4 equality and order written by hand", equal)
    tell("4 structs copied field by field", copied)
    tell("4 one enum made of another by a match", turned)


def five():
    facts, pairs = collections.defaultdict(list), collections.Counter()
    for path, text in files.items():
        for name, head, body in functions(text):
            for it in re.finditer(r"requires\s*\{(.*?)\}\n", head, re.S):
                for part in it.group(1).split("×"):
                    part = " ".join(part.split())
                    facts[part[1:-1] if part.startswith("(") and part.endswith(")") else part].append(f"{path}: {name}")
            taken = re.match(r"\s*(?:<[^>]*>)?\(([^)]*)\)", head)
            names = [" ".join(p.split()) for p in taken.group(1).split(",") if p.strip()] if taken else []
            pairs.update((names[i], names[j]) for i in range(len(names)) for j in range(i + 1, len(names)))
    often = sorted(((len(it), fact) for fact, it in facts.items() if len(it) > 2), reverse=True)
    tell("5 facts that three and more functions require", [f"{n} {fact}" for n, fact in often])
    print(f"5 their places: {sum(n for n, _ in often)}")
    tell("5 pairs of parameters that twenty and more functions take", [f"{n} {a}, {b}" for (a, b), n in pairs.most_common() if n > 19])


def six():
    sized = [
        f"{path}: {it.group(0)}"
        for path, text in files.items()
        for it in re.finditer(r"\b(\w*)(?:at|start|from|text|key): (Rec|Text|Env|Doc)At,\s*(?:pub )?\w*(?:len|size|textlen|keylen): \2Len", text)
    ]
    lent = [f"{path}: {name}" for path, text in files.items() for name, head, body in functions(text) if re.search(r"texts?: &\[u8\]", head) and re.search(r": TextLen", head)]
    arrays = [f"{path}: {it.group(0)}" for path, text in files.items() for it in re.finditer(r"\[0u?\d*; [\w:]+\]", text)]
    tell("6 an offset with a length beside it", sized)
    tell("6 functions that take a text by buffer, offset and length", lent)
    tell("6 arrays of fixed size", arrays)


def seven():
    tables = [f"{path}: {it.group(0)}" for path, text in files.items() for it in re.finditer(r"\bfn\(|\bdyn\b|\[fn\b", text)]
    switches = [
        f"{path}: {name}"
        for path, text in files.items()
        for name, head, body in functions(text)
        for it in re.finditer(r"\bmatch (\w+)\.kind \{|\bif kind ==", body)
    ]
    tell("7 tables of functions, dyn", tables)
    tell("7 switches on a kind that choose what is run", switches)


def eight():
    answers = sorted(glob.glob("crates/*/proofs/**/Answers.antt", recursive=True))
    goals, searched, only = 0, 0, []
    for path in answers:
        with open(path, encoding="utf-8") as it:
            text = it.read()
        mine = re.findall(r"^pub \S+ : (?:\w+\.)*goal\.", text, re.M)
        found = re.findall(r"^\S+ (?:\w+ )*c = search ", text, re.M)
        goals, searched = goals + len(mine), searched + len(found)
        if mine and len(found) == len(mine) and len(set(re.findall(r"= search (.*)", text))) == 1:
            only.append(path)
    print(f"8 files of answers: {len(answers)}\n8 answers: {goals}\n8 answers that say `search LAWS` alone: {searched}")
    tell("8 files whose answers all say the same", only)


for it in points:
    [one, two, three, four, five, six, seven, eight][it - 1]()
