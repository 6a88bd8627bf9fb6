#!/usr/bin/env python3
"""Spells this repository's own definitions, lemmas, fields and constructors in snake case, by names.tsv beside this file.

usage: tools/respell.py      at the top of the repository, once, after the kit's port.py

It turns whole names: in .antt files all that stands outside comments; in .rt files and must-fail edits the names that no Rust code has,
with a capital inside or a dash; in comments and on pages those with a capital, and those with a dash too between backticks. A name that a
file takes from a library of the kit stays in that file, and so does an accessor that Rattle makes, as `c.if-on` and `w.count-is`.
"""

import os
import re
import sys

TOP = os.getcwd()
HERE = os.path.dirname(os.path.realpath(__file__))
NAME = re.compile(r'[^\s(){}.;,@"«»`]+')
COMMENT = re.compile(r'(?<![^\s(){}.;,@"«»])--[^\n]*|\{-.*?-\}', re.S)
RUST = re.compile(r'//[^\n]*|"(?:\\.|[^"\\\n])*"')
USE = re.compile(r"\buse ([^{;\n]*)\{([^}]*)\}")
# Names that no Rust code has: with a capital inside or a dot in the middle, and those with a dash too.
MIXED = re.compile(r"[a-z0-9][A-Z]|·")
OLD = re.compile(r"[a-z0-9][A-Z]|·|-")
ANSWERS = re.compile(r"/proofs/.+/(Answers|Invariants|Proof)\.antt$")
OWNER = re.compile(r"(?:^|[^\w'])([a-z])\.$")
MADE_HEADS = ("if", "in", "loop", "call", "match", "arm", "returns", "the")


def rows():
    everywhere, alone = {}, {}
    with open(os.path.join(HERE, "names.tsv"), encoding="utf-8") as f:
        for line in f:
            if line.startswith("#"):
                continue
            old, new, *path = line.rstrip("\n").split("\t")
            if path:
                alone.setdefault(path[0], {})[old] = new
            else:
                everywhere[old] = new
    return everywhere, alone


EVERYWHERE, ALONE = rows()
CRATES = set(os.listdir(os.path.join(TOP, "crates")))


def foreign(text):
    """The names that a file takes from elsewhere than this repository's crates."""
    found = set()
    for m in USE.finditer(text):
        crate = re.match(r"Rattle\.(\w+)", m.group(1))
        if not (crate and crate.group(1) in CRATES):
            found |= {x.split(" as ")[-1].strip() for x in m.group(2).split(",")}
    return found


def turned(text, table, which=None, made=()):
    """The text with each name of the table turned; which: those alone that match this pattern; made: names that Rattle may have made."""

    def one(m):
        name = m.group(0)
        new = table.get(name)
        if new is None or (which and not which.search(name)):
            return name
        parts, owner = name.split("-"), OWNER.search(text[: m.start()][-3:])
        if owner and name in made and (owner[1] == "c" or parts[0] in MADE_HEADS or parts[-1] == "is"):
            return name
        return new

    return NAME.sub(one, text)


def pieces(text, quiet, plain, other):
    """The text with `plain` done to what stands outside the pattern `quiet`, and `other` to what it finds."""
    out, end = [], 0
    for m in quiet.finditer(text):
        out += [plain(text[end : m.start()]), other(m.group(0))]
        end = m.end()
    return "".join(out + [plain(text[end:])])


def same_alias(text):
    """An item `a as a` is `a`."""
    return re.sub(r"(?<![^\s{,])([^\s{},]+) as \1(?=[\s,}])", r"\1", text)


def prose(text, table):
    span = lambda m: m.group(1) + turned(m.group(2), table, OLD) + m.group(1)
    return re.sub(r"(`+)([^`\n]+?)\1", span, turned(text, table, MIXED))


def antt(text, table, path):
    made = EVERYWHERE.keys() - ALONE.get(path, {}).keys() if ANSWERS.search(path) else ()
    return same_alias(pieces(text, COMMENT, lambda t: turned(t, table, made=made), lambda t: prose(t, table)))


def source(text, table, path):
    comment = lambda t: prose(t, table) if t.startswith("//") else t
    return same_alias(pieces(text, RUST, lambda t: turned(t, table, OLD), comment))


def page(text, table, path):
    return prose(text, table)


def edit(text, table, path):
    return turned(text, table, OLD)


def main():
    if not os.path.isdir(os.path.join(TOP, "crates")):
        sys.exit("respell: run it at the top of the repository")
    changed = 0
    for folder, dirs, files in os.walk(TOP):
        dirs[:] = sorted(d for d in dirs if d not in ("out", "target", ".git", "tools"))
        for f in sorted(files):
            path = os.path.join(folder, f)
            rel = os.path.relpath(path, TOP)
            turn = {".antt": antt, ".rt": source, ".md": page, ".edit": edit}.get(os.path.splitext(f)[1])
            if turn is None:
                continue
            with open(path, encoding="utf-8") as g:
                text = g.read()
            kept = foreign(text) if turn in (antt, source) else set()
            table = {k: v for k, v in EVERYWHERE.items() if k not in kept} | ALONE.get(rel, {})
            new = turn(text, table, rel)
            if new != text:
                changed += 1
                with open(path, "w", encoding="utf-8") as g:
                    g.write(new)
    print(f"respell: {changed} files changed")


main()
