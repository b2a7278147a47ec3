#!/usr/bin/env python3
"""Brings the repository's own definitions and lemmas to the spelling of today's Rattle: words in snake case.

usage: python3 tools/respell_names.py            at the top of the repository, once, after port.py
       python3 tools/respell_names.py --list     prints each name, old and new, and the names that would fall together; changes nothing

A name such as `setOf` becomes `set_of`, and `setOf-lt` becomes `set_of-lt`; a law that speaks of a definition has its name in one piece, so that
`give-up-whole` becomes `give_up-whole`. Left alone are what begins with a capital (types and facts), names of the
kit's library (whatever a `use` line brings from outside this repository's crates). The whole of each .rt, .antt and .edit file is turned; a .rt file
has such names in its `ghost use` lines and clauses alone, since code and strings here have none.
"""
import os
import re
import sys

# laws that a definition's new name would fall together with: each gets a name that says more
LAWS = {
    "one_more": "one_more-right",
    "none_more": "one_more-wrong",
    "same_item": "same_item-is",
    "item_on": "item_on-is",
    "too_long": "sheet-too_long",
}
# a law of that name in one file, where elsewhere it is a definition's
IN_FILE = {"crates/book/proofs/Working.antt": {"new_row": "row_after-fitted"}}
# definitions that laws name with a dash inside
PIECES = ("give_up", "in_table", "in_use", "is_open", "no_book", "no_item", "of_places", "opened_item", "or_star", "well_formed")
# what the older library's words left in names, and an alias with a dot inside
OLDER = {"get_d_": "get_or-", "get_d-": "get_or-", "Places·places": "place_count"}
OWN = {name for name in os.listdir("crates") if os.path.isdir(os.path.join("crates", name))}
WORD = re.compile(r"(?<![\w'])[A-Za-z_][\w'₀-₉]*(?:-[\w'₀-₉]+)*")
CAMEL = re.compile(r"(?<=[a-z0-9])([A-Z][a-z0-9]*)")


def files():
    for folder, dirs, names in os.walk("crates"):
        dirs[:] = sorted(d for d in dirs if d != "out")
        for name in sorted(names):
            if name.endswith((".rt", ".antt", ".edit")):
                yield os.path.join(folder, name)


def read(path):
    with open(path, encoding="utf-8") as text:
        return text.read()


def library(texts):
    """Names that use lines bring from outside this repository's crates."""
    found = set()
    for text in texts:
        for module, names in re.findall(r"^\s*(?:ghost )?use ([\w.+'-]+)\.\{([^}]*)\}", text, re.M):
            parts = module.split(".")
            if parts[0] == "Rattle" and len(parts) > 1 and parts[1] in OWN:
                continue
            for entry in names.split(","):
                for name in entry.split(" as ")[:1]:
                    found.add(name.strip())
    return found


def respelled(part):
    """A part of a name, between dashes: camel case becomes snake case where it begins with a small letter."""
    if not part or not (part[0].islower() or part[0] == "_"):
        return part
    return CAMEL.sub(lambda m: "_" + m.group(1).lower(), part)


def turn(text, kept, laws):
    def one(match):
        word = match.group(0)
        if word in kept:
            return word
        if word in laws:
            return laws[word]
        new = "-".join(part if part in kept else respelled(part) for part in word.split("-"))
        for piece in PIECES:
            dashed = piece.replace("_", "-")
            if new != dashed:
                new = re.sub(rf"(?<![^-]){dashed}(?![^-])", piece, new)
        return new

    text = WORD.sub(one, text)
    for old, new in OLDER.items():
        text = text.replace(old, new)
    return text


def main():
    listing = "--list" in sys.argv[1:]
    paths = list(files())
    texts = {path: read(path) for path in paths}
    kept = library(texts.values())
    before = set()
    for text in texts.values():
        before |= set(WORD.findall(text))
    turned = {}
    for word in before:
        new = turn(word, kept, {})
        if new != word:
            turned[word] = new
    if listing:
        for word in sorted(turned):
            print(f"{word} {turned[word]}{'   falls together' if turned[word] in before else ''}")
        return
    for path in paths:
        laws = {**LAWS, **IN_FILE.get(path, {})} if path.endswith(".antt") else {}
        text = turn(texts[path], kept, laws)
        if text != texts[path]:
            with open(path, "w", encoding="utf-8") as out:
                out.write(text)


main()
