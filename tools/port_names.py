#!/usr/bin/env python3
"""Brings the repository's own definitions and lemmas to today's spelling, words in snake case, once, right after port.py.

usage: python3 tools/port_names.py            at the top of the repository

tools/port_names.tsv lists each old name and its new one. A lemma that would fall together with a definition has `_lem` behind it. Where port.py gave a
lemma the name that a definition now gets, the lemma is renamed first, in the files that name it. Names of functions, exported names, strings, inputs and
outputs keep their spelling: in a .rt file no word of code is in the list.
"""
import glob
import os
import re
import sys

HERE = os.path.dirname(os.path.realpath(__file__))
TOP = os.path.dirname(HERE) if len(sys.argv) < 2 else sys.argv[1]
NAMES = dict(line.rstrip("\n").split("\t") for line in open(os.path.join(HERE, "port_names.tsv"), encoding="utf-8"))
# lemmas whose name a definition gets now
FIRST = [
    ("crates/lyndon/specs/Cuts.antt", "is_live"),
    ("crates/lyndon/specs/Listed.antt", "is_word"),
    ("crates/naive_steps/proofs/Following.antt", "no_step"),
    ("crates/stack/proofs/Adding.antt", "second_word"),
    ("crates/listing/proofs/Entries.antt", "from_one"),
    ("crates/listing/proofs/list_one/Proof.antt", "from_one"),
]
WORD = re.compile(r"(?<![\w\-'′·])[A-Za-z_][\w\-'′]*")


def turned(text):
    return WORD.sub(lambda m: NAMES.get(m[0], m[0]), text)


def rewrite(path, change):
    with open(path, encoding="utf-8") as f:
        text = f.read()
    new = change(text)
    if new != text:
        with open(path, "w", encoding="utf-8") as f:
            f.write(new)


for path, name in FIRST:
    if os.path.exists(os.path.join(TOP, path)):
        rewrite(os.path.join(TOP, path), lambda t: re.sub(r"(?<![\w\-'′·.])%s(?![\w\-'′])" % name, name + "_lem", t))
for ending in ("src/*.rt", "specs/**/*.antt", "proofs/**/*.antt", "must-fail/*.edit"):
    for path in sorted(glob.glob(os.path.join(TOP, "crates", "*", ending), recursive=True)):
        rewrite(path, turned)
