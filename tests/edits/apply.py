"""Applies a must-fail edit to a crate's files, as rt does: apply.py EDIT FOLDER, of the crate; apply.py EDIT FOLDER LABEL applies one of its wrong
answers alone. Each 'old:' text stands once in its file, as the pairs before it have left it."""
import os
import re
import sys

edit, folder, *alone = sys.argv[1:]
texts, file, old, pairs = {}, None, None, 0
label = os.path.basename(edit).removesuffix(".edit")
for line in open(edit, encoding="utf-8").read().split("\n"):
    if line.startswith("file: "):
        file = line[6:].strip()
        if file not in texts:
            texts[file] = open(f"{folder}/{file}", encoding="utf-8").read()
    elif line.startswith("old: "):
        old = line[5:]
    elif line.startswith("new:"):
        new = line[4:].removeprefix(" ")
        if alone and label not in alone:
            old = None
            continue
        if file is None or not old:
            sys.exit(f"{edit}: a 'new:' line stands before any 'file:' or 'old:' line")
        if texts[file].count(old) != 1:
            sys.exit(f"{edit}: the text is in {file} {texts[file].count(old)} times, and not once: {old}")
        texts[file], old, pairs = texts[file].replace(old, new), None, pairs + 1
    elif re.match(r"[a-z_0-9]+: ", line):
        label = line.partition(":")[0]
if pairs == 0:
    sys.exit(f"{edit}: it has no 'old:' and 'new:' pair{''.join(f' of {it}' for it in alone)}")
for file, text in texts.items():
    with open(f"{folder}/{file}", "w", encoding="utf-8") as it:
        it.write(text)
