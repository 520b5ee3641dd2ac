#!/usr/bin/env python3
"""Respells this repository's own names as today's Rattle spells them: words in snake case, with no dash in a name of our own.

usage: python3 tools/respell.py [FOLDER]     once, after the kit's port.py; FOLDER is the top of the repository

It goes over specs/, proofs/ and the ghost text of src/, the edits in must-fail/, and what stands between backticks in README.md and
docs/. Functions of src/, exported names, strings, inputs and outputs keep their names. It stops where two names would fall together.
"""

import glob
import os
import re
import sys

ROOT = sys.argv[1] if len(sys.argv) > 1 else "."
WORD = re.compile(r"[A-Za-zµ_][A-Za-z0-9_'₀-₉ℕ]*(?:-[A-Za-z0-9_'₀-₉]+)*")
DEFINED = re.compile(r"(?m)^\s*(?:abbrev\s+|unfoldable\s+|pub\s+|mod\s+)*(" + WORD.pattern + r")\s*:(?!=)")
CAMEL = re.compile(r"(?<=[a-z0-9])([A-Z])")
USE = re.compile(r"(?m)^\s*(?:ghost )?use ([^\s{;]+)(?:\.\{([^}]*)\})?")
# Two names that would fall together: the definition gets the plain one, the lemma about it this one.
APART = {
    "all-moves": "total_of_moves",
    "carry_back": "carry_back_lem",
    "cut-place": "cut_place_lem",
    "from_at": "from_at_lem",
    "insert-at": "insert_at_lem",
    "map-done": "map_done_lem",
    "move-made": "move_made_lem",
    "place_at": "place_at_lem",
    "run-at": "run_at_lem",
    "start-above": "start_above_lem",
    "table-text": "table_text_lem",
    "under-count": "under_count_lem",
    "under_at": "under_at_lem",
    "under_first": "under_first_lem",
    "walk-count": "walk_count_lem",
}


def read(path):
    with open(path, encoding="utf-8") as f:
        return f.read()


def write(path, text):
    with open(path, "w", encoding="utf-8") as f:
        f.write(text)


def files(*patterns):
    return sorted(f for p in patterns for f in glob.glob(os.path.join(ROOT, p), recursive=True) if "/out/" not in f)


def code_of(text):
    return "\n".join("" if line.lstrip().startswith("--") else line.split(" -- ")[0] for line in text.split("\n"))


def snake(word):
    """The new spelling of one of our words: no capital inside a word that begins with a small letter, and no dash."""
    if not word[0].islower():
        return word
    return CAMEL.sub(lambda m: "_" + m.group(1).lower(), word).replace("-", "_")


def defined_in(path):
    """The names that a file defines, without the goals of a function's proof, whose names the check makes."""
    text = code_of(read(path))
    names = set()
    for m in DEFINED.finditer(text):
        rest = text[m.end() - 1 :]
        if not rest[1:].lstrip().startswith("tie."):
            names.add(m.group(1))
    return names


def own_names(antt):
    """Each name of ours that is to change, with its new spelling."""
    names = set()
    for path in antt:
        names |= defined_in(path)
    names = {n for n in names if n.split("-")[0] not in ("Need", "In", "At", "After")}
    return {n: snake(n) for n in names if snake(n) != n} | APART


def foreign(text, crates):
    """The names that a file takes from elsewhere than this repository's crates."""
    names = set()
    for m in USE.finditer(text):
        path = m.group(1).split(".")
        if not (path[0] == "Rattle" and len(path) > 1 and path[1] in crates):
            names |= set(WORD.findall(m.group(2) or ""))
    return names


def respell(text, names, kept):
    def turn(m):
        word = m.group(0)
        if word in kept:
            return word
        if word in names:
            return names[word]
        if word[0].islower() and CAMEL.search(word) and "-" not in word:
            return snake(word)
        return word

    return WORD.sub(turn, text)


def ghost(text, turn):
    """Turns the ghost text of a source file: its ghost use lines and its clauses."""
    lines = text.split("\n")
    inside = 0
    for i, line in enumerate(lines):
        clause = re.match(r"\s*(requires|ensures|ghost|decreases)\b", line)
        if clause or inside > 0:
            lines[i] = turn(line)
            inside += line.count("{") - line.count("}")
            inside = max(inside, 0)
    return "\n".join(lines)


def main():
    crates = set(os.listdir(os.path.join(ROOT, "crates")))
    antt = files("crates/*/specs/**/*.antt", "crates/*/proofs/**/*.antt")
    names = own_names(antt)
    turned = {}
    taken = set()
    for path in antt:
        taken |= defined_in(path)
    taken -= set(APART)
    elsewhere = set()
    for path in antt:
        elsewhere |= foreign(read(path), crates)
    for name, new in names.items():
        turned.setdefault(new, set()).add(name)
        if new in elsewhere:
            taken.add(new)
    together = {new: old for new, old in turned.items() if len(old) > 1 or new in taken}
    for new, old in sorted(together.items()):
        print("together:", new, sorted(old), "(taken)" if new in taken else "")
    if together:
        sys.exit(1)
    for path in antt:
        text = read(path)
        kept = foreign(text, crates)
        write(path, respell(text, names, kept))
    for path in files("crates/*/src/**/*.rt"):
        text = read(path)
        kept = foreign(text, crates)
        write(path, ghost(text, lambda line: respell(line, names, kept)))
    for path in files("crates/*/must-fail/*.edit"):
        text = read(path)
        source = re.search(r"(?m)^file: (\S+)", text).group(1)
        home = read(os.path.join(os.path.dirname(path), "..", source))
        write(path, respell(text, names, foreign(home, crates)))
    for path in files("README.md", "docs/*.md"):
        write(path, re.sub(r"`[^`\n]+`", lambda m: respell(m.group(0), names, set()), read(path)))


main()
