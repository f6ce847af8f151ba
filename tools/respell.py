#!/usr/bin/env python3
"""Respells this repository's own definitions and lemmas: words in snake case, a dash only behind the name of a definition.

usage: python3 tools/respell.py        at the top of the repository, once, after the toolchain's own script

Types, modules, names of src/, strings, inputs and outputs keep their names. Two names that would fall together are told apart by `_lem` at the lemma's.
"""

import os
import re

TOKEN = re.compile(r"[A-Za-z_][A-Za-z0-9_'\u25cc-]*")
DEFINITION = re.compile(r"^(\s*)((?:(?:abbrev|unfoldable|pub|data|record|ruleset)\s+)*)([A-Za-z_][A-Za-z0-9_'-]*)\s*(?::(?!=)(.*)|=.*)$")
LITERAL = re.compile(r"""'(?:[^'\\\n]|\\[^\n])'|"(?:[^"\\]|\\.)*\"""")
BACKTICKS = re.compile(r"`[^`\n]*`")
# Names that an import gives.
ALIASES = {"aText": "a_text", "someNumbers": "some_numbers", "someTexts": "some_texts", "stopsOf": "stops_of", "respondOf": "respond_of"}
# Words of the library that a lemma may be named after.
LIBRARY = {"length", "take", "drop", "set", "map", "append"}


def files(root, endings):
    for folder, dirs, names in os.walk(root):
        dirs[:] = sorted(d for d in dirs if d not in ("out", ".git", "target", "build"))
        for name in sorted(names):
            if name.endswith(endings):
                yield os.path.join(folder, name)


def read(path):
    with open(path, encoding="utf-8") as f:
        return f.read()


def declared():
    """The names that the files of specs/ and proofs/ declare: those of definitions, and those of lemmas and fields."""
    definitions, others = set(), set()
    for path in files("crates", ".antt"):
        answers = os.path.basename(path) in ("Answers.antt", "Invariants.antt")
        for line in read(path).splitlines():
            m = DEFINITION.match(line)
            if not m or m.group(3) in ("let", "in") or (answers and "goal." in line) or m.group(4) is None and "ruleset" not in m.group(2):
                continue
            kinds = m.group(2).split()
            (definitions if {"abbrev", "unfoldable", "data", "record"} & set(kinds) else others).add(m.group(3))
    return definitions, others - definitions


def snake(word):
    return re.sub(r"(?<=[a-z0-9])([A-Z])", lambda m: "_" + m.group(1).lower(), word)


def spelled(name, definitions):
    if name[0].isupper():
        return name
    parts = name.split("-")
    out = snake(parts[0])
    for i, part in enumerate(parts[1:], 1):
        joins = i == 1 and (parts[0] in definitions or parts[0] in LIBRARY)
        out += ("-" if joins else "_") + snake(part)
    return out


def source_names():
    names = set()
    for path in files("crates", ".rt"):
        names |= set(re.findall(r"\b(?:fn|mod|const|static)\s+([A-Za-z_]\w*)", read(path)))
        names |= set(re.findall(r"\b([a-z_]\w*)\s*:(?!:)", read(path)))
    return names


def renaming():
    definitions, others = declared()
    table, taken = dict(ALIASES), set(definitions | others) | set(ALIASES.values())
    for name in sorted(definitions) + sorted(others):
        new = spelled(name, definitions)
        if new == name or name in table:
            continue
        if name in definitions and new in others:
            table[new] = new + "_lem"
            taken.add(new + "_lem")
            taken.discard(new)
        elif new in taken:
            new += "_lem"
        assert new not in taken, (name, new)
        taken.add(new)
        table[name] = new
    return table


def respelled(text, table):
    return TOKEN.sub(lambda m: table.get(m.group(0), m.group(0)), text)


def outside_strings(text, table):
    out, at = [], 0
    for m in LITERAL.finditer(text):
        out += [respelled(text[at : m.start()], table), m.group(0)]
        at = m.end()
    return "".join(out) + respelled(text[at:], table)


def snake_words(text):
    """Also those names in a page that the toolchain's own script respelled."""
    return TOKEN.sub(lambda m: snake(m.group(0)) if m.group(0)[0].islower() else m.group(0), text)


def main():
    table = renaming()
    clash = source_names()
    for old in sorted(table):
        print(f"{old} -> {table[old]}" + ("   (a name of src/ too)" if table[old] in clash else ""))
    for path in files("crates", (".antt", ".rt", ".edit")):
        text = read(path)
        new = respelled(text, table) if path.endswith(".antt") else outside_strings(text, table)
        if new != text:
            with open(path, "w", encoding="utf-8") as f:
                f.write(new)
    for path in ["README.md", *files("docs", ".md")]:
        text = read(path)
        new = BACKTICKS.sub(lambda m: snake_words(respelled(m.group(0), table)), text)
        if new != text:
            with open(path, "w", encoding="utf-8") as f:
                f.write(new)


main()
