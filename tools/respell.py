#!/usr/bin/env python3
"""Brings the names of the definitions and lemmas to snake case: a word in camel case, as limitsOf, becomes limits_of.

usage: respell.py FOLDER    FOLDER is the repository, after port.py

It turns the words of crates/*/specs and crates/*/proofs, of the clauses and ghost items of crates/*/src, and of the edits in
must-fail/. A dash that joins two names stays, and so does a name that begins with a capital, as those of types and modules.
BACK has names that would fall together with another, and what they become instead. It runs once: a second run would take the new names for the old.
"""

import os
import re
import sys

WORD = re.compile(r'[^\s(){}.;,@"«»\[\]`:|]+')
CAMEL = re.compile(r"[a-z][A-Za-z0-9_'₀-₉-]*")
HUMP = re.compile(r"(?<=[a-z0-9])(?=[A-Z])|(?<=[A-Z])(?=[A-Z][a-z])")
GHOST_USE = re.compile(r"ghost\s+use\b[^;]*;")
CLAUSE = re.compile(r"(?:requires|ensures)\s*(?:\w+\s*)?\{")

# The library had the spelling of these lemmas, so that port.py put an underscore for the dash: they have it back, since a definition is
# called so now.
BACK = {
    "claims": {"by_form": "by-form", "given_back": "given-back", "in_order": "in-order"},
    "line": {"digits_of": "digits-of"},
    "lookup": {"known_as": "known-as"},
    "print": {"size_is": "size-is"},
    "scan": {"number_read": "number-read"},
}
back = {}


def snake(word):
    if word in back:
        return back[word]
    if not CAMEL.fullmatch(word):
        return word
    return "-".join(HUMP.sub("_", part).lower() if part[:1].islower() else part for part in word.split("-"))


def words(text):
    return WORD.sub(lambda m: snake(m[0]), text)


def antt(text):
    # quoted text stays
    return "".join(part if i % 2 else words(part) for i, part in enumerate(re.split(r'("(?:[^"\\\n]|\\.)*")', text)))


def closing(text, at):
    depth = 0
    for i in range(at, len(text)):
        depth += {"{": 1, "}": -1}.get(text[i], 0)
        if depth == 0:
            return i + 1
    return len(text)


def rt(text):
    spans = [m.span() for m in GHOST_USE.finditer(text)]
    spans += [(m.end() - 1, closing(text, m.end() - 1)) for m in CLAUSE.finditer(text)]
    for start, end in sorted(spans, reverse=True):
        text = text[:start] + antt(text[start:end]) + text[end:]
    return text


def edit(text):
    return "".join(antt(line) if line.startswith(("old:", "new:")) else line for line in text.splitlines(keepends=True))


def main(root):
    global back
    crates = os.path.join(root, "crates")
    for folder, dirs, files in os.walk(crates):
        dirs[:] = [d for d in dirs if d != "out"]
        back = BACK.get(os.path.relpath(folder, crates).split(os.sep)[0], {})
        for name in files:
            turn = {".antt": antt, ".rt": rt, ".edit": edit}.get(os.path.splitext(name)[1])
            if turn is None:
                continue
            path = os.path.join(folder, name)
            with open(path, encoding="utf-8") as f:
                before = f.read()
            after = turn(before)
            if after != before:
                with open(path, "w", encoding="utf-8") as f:
                    f.write(after)


if __name__ == "__main__":
    if len(sys.argv) != 2:
        raise SystemExit(__doc__)
    main(sys.argv[1])
