#!/usr/bin/env python3
"""Respells the repository's own definitions and lemmas as the language now spells names: words in snake case, where they were in camel case.

usage: tools/respell.py [--list]      at the top of the repository; --list only prints the names, and those that would fall together

Run once, behind the toolchain's own scripts. Words of antt files that begin low and hold a capital are turned, in specs/, proofs/, the clauses
of src/, the must-fail edits and the pages; so are the words of the older library inside names of lemmas (getD). Types, modules, text in quotes
and names of Rust's stay.
"""

import os
import re
import sys

TOKEN = re.compile(r"[A-Za-z_][\w'′]*")
CAMEL = re.compile(r"^[a-z][a-z0-9]*(_[a-z0-9]+)*[A-Z]\w*$")
OLDER = {"getD": "get_or"}
KEEP = re.compile(r"^x[0-9A-F]+$")
# Lemmas that would have their function's name.
LEMMAS = {
    "crates/channel_writer/proofs/RoundTrip.antt": "head_bytes",
    "crates/edits/proofs/AcceptedCodeplug.antt": "index_ok",
    "crates/edits/proofs/ChannelEdits.antt": "index_ok",
    "crates/model/proofs/Validated.antt": "each_of",
}


def files(suffixes):
    for top in ("crates", "docs", "README.md"):
        if os.path.isfile(top):
            yield top
        for folder, dirs, names in os.walk(top):
            dirs[:] = sorted(d for d in dirs if d != "out")
            for name in sorted(names):
                if name.endswith(suffixes):
                    yield os.path.join(folder, name)


def read(path):
    with open(path, encoding="utf-8") as f:
        return f.read()


def snake(word):
    if word in OLDER:
        return OLDER[word]
    word = word.replace("′", "'")
    return re.sub(r"(?<!^)([A-Z])", r"_\1", word).lower()


def words():
    """The words to be turned, and all others that stand in code."""
    turned, others = {}, {}
    for path in files((".antt", ".rt")):
        comment = "--" if path.endswith(".antt") else "//"
        for line in read(path).split("\n"):
            line = line.split(comment)[0]
            if path.endswith(".rt"):
                line = re.sub(r'"(\\.|[^"\\])*"', '""', line)
            for m in TOKEN.finditer(line):
                word = m.group(0)
                before = line[m.start() - 1] if m.start() else " "
                if before.isdigit() or KEEP.match(word):
                    continue
                if path.endswith(".antt") and (CAMEL.match(word) or "′" in word):
                    turned[word] = snake(word)
                else:
                    others.setdefault(word, path)
    return turned, others


def main():
    turned, others = words()
    if "--list" in sys.argv[1:]:
        seen = {}
        for word, new in sorted(turned.items()):
            print(word, new)
            seen.setdefault(new, []).append(word)
        for new, olds in sorted(seen.items()):
            if len(olds) > 1:
                print("together:", new, *olds)
            if new in others:
                print("stands already:", new, others[new])
        return
    for path in files((".antt", ".rt", ".edit", ".md")):
        old = read(path)

        def turn(m):
            word = m.group(0)
            return word + "_lem" if word == LEMMAS.get(path) else turned.get(word, word)

        new = TOKEN.sub(turn, old)
        if new != old:
            with open(path, "w", encoding="utf-8") as f:
                f.write(new)


main()
