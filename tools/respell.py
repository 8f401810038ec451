#!/usr/bin/env python3
"""Brings the names that specs/ and proofs/ declare to snake case: definitions, lemmas, fields and constructors, wherever they are cited.

usage: python3 tools/respell.py        at the top of the repository, once, after the kit's port.py
       python3 tools/respell.py list   prints old and new names, and changes nothing

A word of a name that begins with a capital is a fact's or a type's, and stays. Names of src/, string literals, inputs and outputs are left alone.
"""

import os
import re
import sys

TOKEN = re.compile(r"[^\s(){}\[\],;.\u00ab\u00bb\"]+")
DECLARED = re.compile(r"^\s*(?:(?:pub|abbrev|unfoldable|data|record)\s+)*([^\s(){}\[\],;.:\u00ab\u00bb]+)(?:\s+[({][^(){}]*[)}])*\s+:(?:\s|$)")
# A word of an older library that stands within names.
WORDS = {"getD": "get_or"}
# Lemmas whose names would fall together with a definition's in a file that cites both: in that file, or wherever they are cited.
FIRST = {
    "crates/rules/proofs/Whole.antt": {"first_by": "first_by_lem", "owner_at": "owner_at_lem"},
    "crates/text/proofs/Known.antt": {"some_known": "some_known_lem"},
    "crates/plain/proofs/Live.antt": {"some_known": "some_known_lem"},
    "crates/terminals/proofs/live/member_is_live/Proof.antt": {"some_known": "some_known_lem"},
}


def snake(word):
    """The word of a name in snake case, where it begins with a small letter and has a capital."""
    if word in WORDS:
        return WORDS[word]
    if not re.match(r"^[a-z]", word) or not re.search(r"[A-Z]", word):
        return word
    word = re.sub(r"([a-z0-9\u2080-\u2089'])([A-Z])", r"\1_\2", word)
    return re.sub(r"[A-Z]", lambda m: m.group(0).lower(), word)


def texts():
    for crate in sorted(os.listdir("crates")):
        for part in ("specs", "proofs", "src", "must-fail"):
            for folder, dirs, files in os.walk(os.path.join("crates", crate, part)):
                dirs.sort()
                for name in sorted(files):
                    if name.endswith((".antt", ".rt", ".edit")):
                        yield os.path.join(folder, name)


def names():
    found = set()
    for path in texts():
        if not path.endswith(".antt"):
            continue
        with open(path, encoding="utf-8") as f:
            for line in f:
                m = DECLARED.match(line)
                if m:
                    found.add(m.group(1))
                # Variables of lemmas too.
                found.update(it for it in TOKEN.findall(line) if re.match(r"^[a-z][a-z0-9]*[A-Z]\w*$", it))
    table = {}
    for name in sorted(found):
        new = "-".join(snake(word) for word in name.split("-"))
        if new != name:
            table[name] = new
    return table


def turn(text, table, skip_strings):
    def one(m):
        return table.get(m.group(0), m.group(0))

    if not skip_strings:
        return TOKEN.sub(one, text)
    out, at = [], 0
    for m in re.finditer(r'"(?:\\.|[^"\\\n])*"', text):
        out += [TOKEN.sub(one, text[at : m.start()]), m.group(0)]
        at = m.end()
    return "".join(out) + TOKEN.sub(one, text[at:])


def main():
    table = names()
    if sys.argv[1:] == ["list"]:
        for old, new in table.items():
            print(old, new)
        return
    for path in texts():
        with open(path, encoding="utf-8") as f:
            text = f.read()
        new = turn(text, FIRST.get(path.replace(os.sep, "/"), {}), False)
        new = turn(new, table, path.endswith((".rt", ".edit")))
        if new != text:
            with open(path, "w", encoding="utf-8") as f:
                f.write(new)


main()
