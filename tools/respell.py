#!/usr/bin/env python3
"""Brings this repository's own definitions and lemmas to the spelling of today's Rattle, once, after the kit's port.py.

usage: tools/respell.py         at the top of the repository

What it does, by text: a name of antt in lower camel case is turned to snake case (resolveJob to resolve_job), in .antt files, in .rt files, in must-fail
edits and in the pages; a file specs/Contracts.antt is called specs/Clauses.antt, since Rattle makes a module specs.contracts. Where a lemma would
then have a definition's name, the lemma gets its dash back (LEMMAS below). Functions of src/, exported names, strings, inputs and outputs stay.
"""
import os
import re

# Lemmas whose name port.py turned, and which would fall together with a definition: the files, and the name with its dash.
LEMMAS = {
    "answer-at": ["eval_state/specs/State.antt"],
    "as-member": ["eval_substitutions/", "eval_memory/", "eval_value_laws/", "eval_state/"],
    "end-by": ["sheet_forms/specs/Ends.antt"],
    "first-byte": ["eval_trail/proofs/Beginning.antt"],
    "of-other": ["theory/specs/Room.antt"],
    "one-more": ["eval_value_laws/"],
    "own-key": ["theory_back/", "eval_look_back/"],
    "sum-below": ["theory_weights/specs/Sums.antt"],
    "text-at": ["job_length/proofs/Lengths.antt", "job_profile/proofs/Profiles.antt", "theory/specs/LookUps.antt", "theory/specs/TableSteps.antt", "theory/specs/Tables.antt"],
    "with-part": ["read_cycle/proofs/Pieces.antt", "theory/specs/ReadingPlaces.antt", "read_numbering/specs/Reading.antt"],
    "with-unit": ["text_lengths/proofs/Lengths.antt"],
}
# What bounds a name of antt.
EDGE = r"[^\s(){}.;,@\"«»\[\]`]"
QUIET = re.compile(r'"(?:[^"\\\n]|\\.)*"|(?<![^\s(){}.;,@"«»])--[^\n]*|\{-.*?-\}', re.S)


def files(*ends):
    for folder, dirs, names in os.walk("."):
        dirs[:] = sorted(d for d in dirs if d not in ("out", "target", ".git", "tools"))
        for name in sorted(names):
            if name.endswith(ends):
                yield os.path.join(folder, name)


def snake(name):
    parts = [re.sub(r"(?<=[a-z0-9'])([A-Z])", lambda m: "_" + m[1].lower(), p) if re.match("[a-z]", p) else p for p in name.split("-")]
    return "-".join(parts)


def table():
    """The names to turn: each that stands in the code of a .antt file. Beside it, all names of that code."""
    found, words = set(), set()
    for path in files(".antt"):
        text = QUIET.sub(" ", open(path, encoding="utf-8").read())
        for name in re.findall(EDGE + "+", text):
            words.add(name)
            if re.fullmatch(r"[A-Za-z][\w'-]*", name) and snake(name) != name:
                found.add(name)
    return {name: snake(name) for name in found}, words


def main():
    turned, words = table()
    known = words | set(turned.values())
    name = re.compile(r"(?<![\w'-])(?:" + "|".join(sorted(map(re.escape, turned), key=len, reverse=True)) + r")(?![\w'-]|[^\s\x00-\x7f]*[\w])")
    count = 0
    for path in files(".antt", ".rt", ".edit", ".md"):
        with open(path, encoding="utf-8") as f:
            was = text = f.read()
        if path.endswith(".antt"):
            for lemma, where in LEMMAS.items():
                if any("crates/" + it in path for it in where):
                    text = re.sub(r"(?<![\w'-])" + lemma.replace("-", "_") + r"(?![\w'-])", lemma, text)
        text = name.sub(lambda m: turned[m[0]], text)
        if path.endswith(".md"):
            # port.py turned some names alike, and no page.
            text = re.sub(r"(?<![\w'-])[a-z]+[A-Z]\w*(?![\w'-])", lambda m: snake(m[0]) if snake(m[0]) in known else m[0], text)
        text = re.sub(r"(?<=\.specs\.)Contracts(?=\.|\b)", "Clauses", text)
        text = re.sub(r"(?<=specs/)Contracts(?=\.antt|\b)", "Clauses", text)
        if path.endswith("specs/Lib.antt"):
            text = re.sub(r"(?m)^((?:pub )?mod )Contracts$", r"\1Clauses", text)
        if text != was:
            with open(path, "w", encoding="utf-8") as f:
                f.write(text)
            count += 1
    for path in list(files("Contracts.antt")):
        if path.endswith("/specs/Contracts.antt"):
            os.rename(path, path.replace("Contracts.antt", "Clauses.antt"))
            count += 1
    print(f"respell: {len(turned)} names, {count} files")


if __name__ == "__main__":
    main()
