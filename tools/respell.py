#!/usr/bin/env python3
"""Spells the repository's own definitions and lemmas in snake case, by respelled.tsv beside this file, and names the crate bytes octets.

usage: respell.py table   writes respelled.tsv from the names that crates/ declares
       respell.py         rewrites crates/ and crates.txt by that table

Run it once, at the top, after the toolchain's own script. A name stays where its new spelling already stands in a file
that has the old one; a function of the code may have the name of the definition that it computes. Labels that the checker makes (goal.x, and fields of c and l in answers) stay.
"""

import collections
import os
import re
import subprocess
import sys

HERE = os.path.dirname(os.path.realpath(__file__))
TABLE = os.path.join(HERE, "respelled.tsv")
OLD_CRATE, NEW_CRATE = "bytes", "octets"
NAME = r"[^\s(){}.;,@\"«»⌜⌝\[\]|]+"
TOKEN = re.compile(NAME)
DECLARED = re.compile(r"^\s*(?:abbrev |unfoldable |pub |data |record |\| )*(" + NAME + r"(?: " + NAME + r")*?)(?: \([^()]*\)| \{[^{}]*\})* :(?:\s|$)")
ANSWERS = re.compile(r"/(?:Answers|Invariants|Choices)\.antt$")
WORD = re.compile(r"[A-Za-z][A-Za-z0-9'_-]*")


def files(kinds):
    for folder, dirs, names in os.walk("crates"):
        dirs[:] = sorted(d for d in dirs if d != "out" or folder.count(os.sep) > 1)
        for name in sorted(names):
            if name.endswith(kinds):
                yield os.path.join(folder, name)


def read(path):
    with open(path, encoding="utf-8") as f:
        return f.read()


def bare(text):
    """The text of an .antt file without its comments."""
    return re.sub(r"(?m)^\s*--.*$|\s--\s.*$", "", text)


def snake(name):
    if name[0].islower():
        name = re.sub(r"(?<=[a-z0-9])[A-Z]", lambda m: "_" + m[0].lower(), name)
    return name.replace("-", "_")


def declared():
    """Each name that a definition, a lemma, a field or a constructor has."""
    found = set()
    for path in files((".antt",)):
        for line in bare(read(path)).split("\n"):
            m = DECLARED.match(line)
            if m and not re.search(r":\s+goal\.", line):
                found.update(n for n in m[1].split(" ") if WORD.fullmatch(n))
    return found


# Lemmas whose name a definition gets, file by file.
MOVED = {
    "crates/maker/proofs/SameWords.antt": ["same_from"],
    "crates/maker/proofs/Joining.antt": ["same_from"],
    "crates/meaning/proofs/Telling.antt": ["a_test", "lives_by"],
    "crates/meaning/proofs/Asking.antt": ["test_at"],
    "crates/notation/proofs/Back.antt": ["left_out"],
    "crates/notation/proofs/laws/notation_stands/Answers.antt": ["left_out"],
}


def moved(path, text):
    for name in MOVED.get(path, []):
        text = re.sub(r"(?<![\w.-])%s(?![\w-])" % name, name + "_lem", text)
    return text


def labels():
    """Names behind goal. anywhere, which the checker makes."""
    found = set()
    for path in files((".antt",)):
        found.update(re.findall(r"\bgoal\.(" + NAME + ")", read(path)))
    return found


def table():
    names = declared() - labels()
    # steps of a path and fields, behind a dot, don't count
    tokens = {p: set(re.findall(r"(?<!\.)(?<![^\s(){}.;,@])" + NAME, bare(moved(p, read(p))))) for p in files((".antt",))}
    new = {n: snake(n) for n in names if snake(n) != n}
    for old in sorted(new):
        # a lemma that would have the name of a definition
        if "-" in old and (new[old] in names or any(new[o] == new[old] for o in new if o != old)):
            new[old] += "_lem"
    count = collections.Counter(new.values())
    rows = []
    for old in sorted(new):
        met = count[new[old]] > 1 or any(old in t and new[old] in t for t in tokens.values())
        if not met:
            rows.append((old, new[old]))
        else:
            print("stays:", old)
    with open(TABLE, "w", encoding="utf-8") as f:
        f.writelines(f"{a}\t{b}\n" for a, b in rows)
    print(len(rows), "names")


def rows():
    return dict(line.rstrip("\n").split("\t") for line in open(TABLE, encoding="utf-8"))


def turn_antt(text, names, answers):
    aliases = set(re.findall(r" as (\w+)", text))

    def one(m):
        old = m[0]
        new = names.get(old)
        if new is None:
            return old
        before = text[: m.start()]
        if before.endswith("."):
            head = re.search(r"([\w]+)\.$", before)
            made = answers and not (head and head[1] in aliases) or head and head[1] == "goal"
            if "-" in old and made:
                return old
        return new

    return TOKEN.sub(one, text)


def turn_paths(path, text):
    text = re.sub(r"\bRattle\.%s\." % OLD_CRATE, f"Rattle.{NEW_CRATE}.", text)
    if path.endswith((".rt", ".edit")):
        text = re.sub(r"(?<![\w:])%s::" % OLD_CRATE, f"{NEW_CRATE}::", text)
    return text


def turn():
    names = rows()
    for path in list(files((".antt", ".rt", ".edit"))):
        old = read(path)
        text = turn_paths(path, old)
        if not path.endswith(".edit"):
            text = turn_antt(moved(path, text), names, ANSWERS.search(path))
        if text != old:
            with open(path, "w", encoding="utf-8") as f:
                f.write(text)
    subprocess.run(["git", "mv", f"crates/{OLD_CRATE}", f"crates/{NEW_CRATE}"], check=True)
    lines = read("crates.txt")
    with open("crates.txt", "w", encoding="utf-8") as f:
        f.write(re.sub(r"\b%s\b" % OLD_CRATE, NEW_CRATE, lines))


if __name__ == "__main__":
    table() if sys.argv[1:] == ["table"] else turn()
