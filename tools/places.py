#!/usr/bin/env python3
"""Lists the places in crates/*/src that a design pass looks at, a count for each point.

    tools/places.py [COMMIT]      of the work tree, or of a commit
    tools/places.py -v [COMMIT]   with each place

A line is a candidate, found by its text; which candidates are places is said in docs/DESIGN-PASS.md.
"""
import collections
import itertools
import pathlib
import re
import subprocess
import sys

LINES = {
    "1a a number for a kind": r"\bfn \w+\(&?self\) -> (u8|u16|u32|usize)\b",
    "1b a number that stands for none": r"\b(line|field): 0\b|first on whose|s\.len\(\)$",
    "3a an index counted in a loop": r"\bfor \w+ in \w+\.\.|\.enumerate\(\)|^\s*\w+ \+= 1;|^\s*rows \+= 1",
    "3b a loop that is no `for`": r"^\s*(while|loop)\b",
    "3c a loop that looks for something": r"^\s*for [^{]+\{\s*$",
    "4a comparing or converting by hand": r"\bfn (is|number|value|same_\w+|\w+_decision|\w+_word|word|ended_by|is_effect)\b",
    "4b a cast": r" as (u8|u16|u32|u64|usize|i32|i64)\b",
    "6a a buffer, and a length beside it": r"^\s*(pub(\(crate\))? )?(len|count|start|rows|visited): usize,",
    "6b an array or vector in a field": r"^\s*(pub(\(crate\))? )?\w+: (\[.*; ?\w+\]|Vec<.*>),",
    "7 a choice among steps, a table": r"\bmatch \(?\*?(kind|operator|algorithm|strategy|force|effect)\b|^static ",
}

SPANS = {
    "1c an early return in place of `?`": r"(else|=> |\) )\{\s*return (Err|None)\b|None => return",
    "1d a result taken apart and made again": r"Err\((\w+)\) => (Err\(|\w+\.value\(\))|Ok\((\w+)\) => Ok\(\2\)|Some\((\w+)\) => Some\(\3\),",
}


def tree(commit):
    if commit is None:
        return {str(p): p.read_text() for p in sorted(pathlib.Path(".").glob("crates/*/src/*.rt"))}
    names = subprocess.run(["git", "ls-tree", "-r", "--name-only", commit, "crates"], capture_output=True, text=True, check=True).stdout.split()
    return {n: subprocess.run(["git", "show", f"{commit}:{n}"], capture_output=True, text=True, check=True).stdout
            for n in names if re.fullmatch(r"crates/\w+/src/\w+\.rt", n)}


def functions(files):
    """Name, clauses and body of each function."""
    for name, text in files.items():
        for m in re.finditer(r"^( *)(?:pub(?:\(crate\))? )?fn (\w+)[^\n]*(?:\n(?!\1\})[^\n]*)*?\n\1(?:\{(?:\n(?!\1\})[^\n]*)*\n\1\}|\{\})", text, re.M):
            whole = m.group(0)
            i = whole.find("\n" + m.group(1) + "{") if "\n" + m.group(1) + "{" in whole else whole.rfind("{\n")
            yield f"{name}:{text.count(chr(10), 0, m.start()) + 1} {m.group(2)}", whole[:i], whole[i:]


def shape(text):
    words = re.findall(r'b?"[^"]*"|b?\'[^\']+\'|\w+|[^\s\w]', re.sub(r"//[^\n]*", "", text))
    keep = {"if", "else", "match", "for", "in", "while", "return", "let", "mut", "Some", "None", "Ok", "Err", "true", "false", "self", "as"}
    return tuple(w if w in keep or not re.match(r"[\w'\"]", w) else "_" for w in words)


def report(label, places, verbose):
    print(f"{len(places):4}  {label}")
    if verbose:
        for place in places:
            print(f"        {place}")


def main(words):
    verbose = "-v" in words
    commits = [w for w in words if w != "-v"]
    files = tree(commits[0] if commits else None)
    for label, pattern in LINES.items():
        report(label, [f"{n}:{i} {line.strip()}" for n, t in files.items() if not n.startswith(("crates/file_tests", "crates/decision_tests"))
                       for i, line in enumerate(t.split("\n"), 1) if re.search(pattern, line) and not line.lstrip().startswith("//")], verbose)
    for label, pattern in SPANS.items():
        report(label, [f"{n}:{t.count(chr(10), 0, m.start()) + 1} {' '.join(m.group(0).split())}" for n, t in files.items()
                       if not n.startswith(("crates/file_tests", "crates/decision_tests")) for m in re.finditer(pattern, t)], verbose)
    parts = [f for f in functions(files) if not f[0].startswith(("crates/file_tests", "crates/decision_tests"))]
    shapes = collections.defaultdict(list)
    for place, _, body in parts:
        if len(shape(body)) >= 12:
            shapes[shape(body)].append(place)
    report("2 functions whose bodies have one shape", [", ".join(p) for p in shapes.values() if len(p) > 1], verbose)
    clauses = collections.defaultdict(set)
    pairs = collections.defaultdict(set)
    for place, head, _ in parts:
        for m in re.finditer(r"requires(?: \w+)? \{ (.*) \}$", head, re.M):
            clauses[m.group(1)].add(place)
        for m in re.finditer(r"ensures(?: \w+)? \{ (vec_capacity .*) \}$", head, re.M):
            clauses[m.group(1)].add(place)
        names = sorted(set(re.findall(r"(\w+): (?!usize|Global|&\[u8\])[&\w]", head.split(" requires")[0].split(" ensures")[0])))
        for pair in itertools.combinations(names, 2):
            pairs[pair].add(place)
    report("5a a clause in three functions or more", [f"{len(p)} times: {c}" for c, p in clauses.items() if len(p) >= 3], verbose)
    report("5b parameters together in three functions or more", [f"{len(p)} times: {a}, {b}" for (a, b), p in pairs.items() if len(p) >= 3], verbose)


main(sys.argv[1:])
