#!/usr/bin/env python3
"""Respell the repository's own definitions and lemmas: words joined by dashes become snake case.

Run once, at the top, after the kit's port.py. Names that Rattle makes (goals, invariants, measures)
and names of the libraries keep their dashes: only names that a file of specs/ or proofs/ here
defines are turned. A lemma that would then have its own function's name gets `_lem`.
In .antt and .rt files every such word is turned, in pages only between backticks.
"""
import glob
import re

WORD = r"[A-Za-z_][\w'ℤℕ]*(?:-[\wℤℕ'+*≤]+)+"
DEFINES = re.compile(r"\s*(?:(?:abbrev|unfoldable|pub|opaque)\s+)*([A-Za-z_][\w'ℤℕ-]*) :")


def read(path):
    with open(path, encoding="utf-8") as f:
        return f.read()


def antt_files():
    return sorted(glob.glob("crates/*/specs/*.antt") + glob.glob("crates/*/proofs/**/*.antt", recursive=True))


def own_names(files):
    own, goals = {}, set()
    for path in files:
        for line in read(path).splitlines():
            m = DEFINES.match(line)
            if m and "-" in m.group(1):
                own.setdefault(m.group(1), set()).add(path)
                if re.search(r" : goal\.", line):
                    goals.add(m.group(1))
    return {n: paths for n, paths in own.items() if n not in goals}


def function_names():
    found = {}
    for path in glob.glob("crates/*/src/**/*.rt", recursive=True):
        found.setdefault(path.split("/")[1], set()).update(re.findall(r"\bfn (\w+)", read(path)))
    return found


def spelled(name, paths, functions):
    snake = name.replace("-", "_")
    lemma = all("/proofs/" in p for p in paths)
    if lemma and any(snake in functions[p.split("/")[1]] for p in paths):
        return snake + "_lem"
    return snake


def main():
    files = antt_files()
    functions = function_names()
    names = {n: spelled(n, paths, functions) for n, paths in own_names(files).items()}
    turn = lambda text: re.sub(WORD, lambda m: names.get(m.group(0), m.group(0)), text)
    sources = files + sorted(glob.glob("crates/*/src/**/*.rt", recursive=True))
    for path in sources:
        text = read(path)
        new = turn(text)
        if new != text:
            with open(path, "w", encoding="utf-8") as f:
                f.write(new)
    for path in ["README.md"] + sorted(glob.glob("docs/*.md")):
        text = read(path)
        new = re.sub(r"`[^`\n]*`", lambda m: turn(m.group(0)), text)
        if new != text:
            with open(path, "w", encoding="utf-8") as f:
                f.write(new)
    for old in sorted(names):
        print(old, names[old])


main()
