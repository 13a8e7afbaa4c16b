#!/usr/bin/env python3
"""Spells this repository's own definitions, lemmas and bound names in snake case: sameForest is same_forest, lenIn is len_in.

usage: python3 tools/respell.py [--falls]      at the top of the repository, once, after the spelling of the language was turned

It goes over specs/, proofs/ and the clauses of src/. Types, modules, strings and functions keep their names. With --falls it
changes nothing and lists each name that would meet another one in some file.
"""

import os
import re
import sys

# A word as antt cuts words; in src/ a string is passed over.
WORD = re.compile(r"[^\s(){}.;,@\"«»\[\]|:]+")
STRING = re.compile(r'b?"(?:[^"\\]|\\.)*"')
CAMEL = re.compile(r"[a-z0-9][A-Z]")
PLAIN = re.compile(r"[a-z][\w'₀-₉-]*")
# Definitions of specs/ that had a hyphen.
HYPHENED = {"p-empty": "p_empty", "folder-a": "folder_a", "folder-b": "folder_b"}
# Lemmas that would be called as the definition that they are about: the module that has each, its name and its new name.
LEMMAS = [
    ("listing.proofs.Kept", "one_each", "one_each-good"),
    ("listing.proofs.Spelling", "is_name", "is_name-text"),
    ("listing.proofs.Steps", "root_line", "root_line-runs"),
    ("listing_layout.proofs.Whole", "whole_from", "whole_from-append"),
    ("plan.proofs.Settled", "row_from", "row_from-one"),
    ("table_slot.proofs.Search", "by_answer", "by_answer-ordered"),
]


def turned(word):
    """The word in snake case; one that isn't a name in camel case stays."""
    if word in HYPHENED:
        return HYPHENED[word]
    if not PLAIN.fullmatch(word) or not CAMEL.search(word):
        return word
    parts = ["get_or" if it == "getD" else it for it in word.split("-")]
    return "-".join(re.sub(r"(?<=[a-z0-9])[A-Z]+", lambda m: "_" + m[0].lower(), it) for it in parts)


def texts():
    for folder, folders, files in os.walk("crates"):
        folders[:] = sorted(it for it in folders if it != "out")
        for name in sorted(files):
            if name.endswith((".rt", ".antt")):
                yield os.path.join(folder, name)


def lemmas_apart(path, text):
    for module, name, apart in LEMMAS:
        here = path == "crates/" + module.replace(".", "/") + ".antt"
        if here or re.search(rf"use Rattle\.{re.escape(module)}\.{{[^}}]*(?<![\w'-]){name}(?![\w'-])", text):
            text = re.sub(rf"(?<![\w'.-]){name}(?![\w'.-])", apart, text)
    return text


def respelled(path, text):
    if path.endswith(".antt"):
        text = lemmas_apart(path, text)
        return WORD.sub(lambda m: turned(m[0]), text)
    out, at = [], 0
    for m in STRING.finditer(text):
        out += [WORD.sub(lambda w: turned(w[0]), text[at : m.start()]), m[0]]
        at = m.end()
    return "".join(out + [WORD.sub(lambda w: turned(w[0]), text[at:])])


def falls():
    """Names that stood beside one another in a file and would be one name there."""
    for path in texts():
        with open(path, encoding="utf-8") as f:
            words = set(WORD.findall(f.read()))
        for word in sorted(words):
            if turned(word) != word and turned(word) in words:
                print(f"{path}: {word} and {turned(word)}")


def main():
    if "--falls" in sys.argv[1:]:
        return falls()
    for path in texts():
        with open(path, encoding="utf-8") as f:
            old = f.read()
        new = respelled(path, old)
        if new != old:
            with open(path, "w", encoding="utf-8") as f:
                f.write(new)


main()
