#!/usr/bin/env python3
"""List the places in crates/*/src that may still have an older form: python3 tools/places.py [POINT].

The points are those of docs/DESIGN-PASS.md. A line is a place to look at, not a verdict: the page says
which lines are places. With no POINT the number of lines of each is printed.
"""
import collections
import difflib
import glob
import re
import sys

LINES = {
    1: r"^\s*(pub )?enum |^\s*(pub )?[a-z_]+: bool,|\(\w+, bool\)|\) -> bool|=> \d+,|\b\d+ => |Refused\(\w*\)|\bclass\b",
    3: r"^\s*for [^{]* in [^{]*\.\.|^\s*while |^\s*\w+ \+= 1;|^\s*(at|k|n|i|j) = ",
    4: r"fn (number|word_at|direction_of|letter_of|comes_before|side_of|told\w*|done|difference|high|low|in_word|in_byte"
    r"|put_digits?|negated|counted|lesser|blank|clone|eq|cmp)\b|impl.* (Display|From<.*|TryFrom<.*|PartialEq|Ord|Default) for ",
    6: r"\blows\b: |\bhighs\b: |\bslots: |\blen: usize|\* 13\b|/ 13\b|% 13\b|; 169\]|Vec<\(",
    7: r"match .*\b(direction|call|word|n)\b.* \{|for n in 0\.\.4|\bdyn |\bfn\(|\bimpl Fn",
}


def sources():
    return sorted(f for f in glob.glob("crates/*/src/**/*.rt", recursive=True) if not f.endswith("tests.rt"))


def matching(point):
    for path in sources():
        with open(path, encoding="utf-8") as text:
            for at, line in enumerate(text, 1):
                if re.search(LINES[point], line) and not line.lstrip().startswith("//"):
                    yield f"{path}:{at}: {line.strip()}"


def functions():
    for path in sources():
        with open(path, encoding="utf-8") as text:
            s = text.read()
        for m in re.finditer(r"^( *)(?:pub(?:\(crate\))? )?fn (\w+)[^\n]*\n(?:.*\n)*?\1\}\n", s, re.M):
            yield path, m.group(2), m.group(0)


def twins():
    """Pairs of functions that are the same, or nearly, once names, types and numbers are blanked."""
    def shape(body):
        code = [x for x in body.split("\n")[1:] if x.strip() and not re.match(r"\s*(//|requires|ensures)", x)]
        return [re.sub(r"\w+", "w", x.strip()) for x in code]
    found = [(p, n, shape(b)) for p, n, b in functions()]
    found = [x for x in found if len(x[2]) >= 5]
    for i, (p, n, a) in enumerate(found):
        for q, m, b in found[i + 1:]:
            if abs(len(a) - len(b)) <= 2 and difflib.SequenceMatcher(None, a, b).ratio() > 0.84:
                yield f"{p}: {n} ~ {q}: {m}"


def together():
    """Clauses that three or more functions of a crate require, long lists of parameters, and axes passed in pairs."""
    for path, name, body in functions():
        head = body.split("{")[0].split("requires")[0].split("ensures")[0]
        names = re.findall(r"(\w+): ", head)
        if len(names) + ("self" in head) > 5:
            yield f"{path}: {name} takes {len(names) + ('self' in head)} parameters"
        if "time" in names and "platform" in names and "T" in head:
            yield f"{path}: {name} takes both axes"
    for crate in sorted(glob.glob("crates/*")):
        asked = collections.Counter()
        for path, name, body in functions():
            if path.startswith(crate + "/"):
                for clause in re.findall(r"requires(?: \w+)? \{(.*)\}\s*$", body, re.M):
                    asked[re.sub(r"\b(old|new|now)\b", "_", clause.strip())] += 1
        for clause, times in sorted(asked.items()):
            if times >= 3:
                yield f"{crate}: {times} functions require {clause}"


def places(point):
    return list({2: twins, 5: together}.get(point, lambda: matching(point))())


if __name__ == "__main__":
    if len(sys.argv) > 1:
        print("\n".join(places(int(sys.argv[1]))))
    else:
        for point in range(1, 8):
            print(f"point {point}: {len(places(point))} lines")
