#!/usr/bin/env python3
"""Spells the repository's own definitions and lemmas in snake case, by the rows of respelled.tsv beside this file.

usage: tools/respell.py [FOLDER]     once, right after the kit's port.py, at the top of the repository (or of FOLDER)

A row is an old name, a tab and the new one. Whole words turn: in .antt files and must-fail edits everywhere, in .rt files in ghost lines, clauses and comments. A name with
dashes turns in a comment only where the same file's code has it, since in a comment it may be plain English. Functions of src/, exported names, strings, inputs and outputs stay.
"""
import os
import re
import sys

HERE = os.path.dirname(os.path.realpath(__file__))
WORD = re.compile(r'[^\s(){}.;,@"«»]+')
CLAUSE = re.compile(r"^\s*(?:ghost\b|requires\b|ensures\b|invariant\b)")


def rows():
    with open(os.path.join(HERE, "respelled.tsv"), encoding="utf-8") as f:
        return dict(line.rstrip("\n").split("\t") for line in f if line.strip())


def turned(text, table):
    return WORD.sub(lambda m: table.get(m.group(0), m.group(0)), text)


def in_comment(text, table, code):
    """A comment's words: one in camel case turns, one with dashes only where the code has it. A full stop or a colon behind a word is no part of it."""

    def word(m):
        it = m.group(0)
        bare = it.rstrip(":'`")
        head = it[: len(it) - len(it.lstrip("`"))]
        bare = bare[len(head):] if head else bare
        if bare in table and ("-" not in bare or bare in code):
            return it.replace(bare, table[bare])
        return it

    return WORD.sub(word, text)


def antt(text, table):
    code = set(WORD.findall(re.sub(r"--[^\n]*", "", text)))
    lines = []
    for line in text.split("\n"):
        m = re.search(r"(?:^|(?<=[\s(){};,]))--", line)
        at = m.start() if m else len(line)
        lines.append(turned(line[:at], table) + in_comment(line[at:], table, code))
    return "\n".join(lines)


def rust(text, table):
    code = set(WORD.findall(re.sub(r"//[^\n]*", "", text)))
    lines, depth, inside = [], 0, False
    for line in text.split("\n"):
        at = line.find("//")
        at = len(line) if at < 0 else at
        head, tail = line[:at], line[at:]
        if CLAUSE.match(head):
            inside = True
        if inside:
            depth += head.count("{") - head.count("}")
            head = turned(head, table)
            if depth <= 0:
                inside, depth = False, 0
        lines.append(head + in_comment(tail, table, code))
    return "\n".join(lines)


def main():
    top = os.path.abspath(sys.argv[1] if len(sys.argv) > 1 else os.path.join(HERE, ".."))
    table = rows()
    for folder, dirs, files in os.walk(os.path.join(top, "crates")):
        dirs[:] = sorted(d for d in dirs if d != "out")
        for name in sorted(files):
            how = antt if name.endswith(".antt") else rust if name.endswith(".rt") else turned if name.endswith(".edit") else None
            if how is None:
                continue
            path = os.path.join(folder, name)
            with open(path, encoding="utf-8") as f:
                old = f.read()
            new = how(old, table)
            if new != old:
                with open(path, "w", encoding="utf-8") as f:
                    f.write(new)


main()
