#!/usr/bin/env python3
"""Lists the places that docs/DESIGN-PASS.md counts, point by point, from the src/ of every crate.

    tools/places.py [POINT]

A line is `crate/file:line: text`. What a point's pattern finds is a candidate; the page says which candidates are places of the point.
"""
import collections
import pathlib
import re
import sys

TOP = pathlib.Path(__file__).resolve().parent.parent / "crates"
# 1, 2, 3, 4, 6 and 7: a pattern for a line
PATTERNS = {
    "1": r"^\s*(?:pub(?:\(crate\))? )?enum |=> -\d|=> \d+,$|refused\(\w+, \d+\)|\.number\(\)",
    "3": r"^\s*(?:'\w+: )?(?:while|loop)\b",
    "4": r"\bfn (?:number|flag|bit|one_if|smaller|larger|at_most|least|clamped?|nearest|exists|is_found|same_float|copy|select)\b"
         r"|\{ 1 \} else \{ 0 \}|\{ (?:a|b|n|i|f) \} else \{ (?:a|b|most|last|frames|len) \}",
    "6": r"\[(?:0\w*(?:\.0f64)?|0\.0f64|ABSENT|MARK|FLOAT_MARK|at|7777u32); \w+\]|: \[\w+; \w+\],",
    "7": r"^\s*match ",
}


def sources():
    for path in sorted(TOP.glob("*/src/*.rt")):
        if path.name != "vectors.rt":
            yield path, path.read_text().splitlines()


def place(path, number):
    return f"{path.parts[-3]}/{path.name}:{number + 1}"


def by_pattern(pattern):
    for path, lines in sources():
        for number, line in enumerate(lines):
            if re.search(pattern, line) and not line.lstrip().startswith("//"):
                print(f"{place(path, number)}: {line.strip()}")


def signatures():
    """Each function's place, name, parameters and facts of its `requires`."""
    for path, lines in sources():
        text = "\n".join(lines)
        for found in re.finditer(r"^( *)(?:pub(?:\(crate\))? )?(?:extern \"C\" )?fn (\w+)(?:<[^(]*>)?\(", text, re.M):
            indent, name = found.groups()
            depth, end = 1, found.end()
            while depth:
                depth += {"(": 1, ")": -1}.get(text[end], 0)
                end += 1
            parameters = [part.strip() for part in text[found.end(): end - 1].split(",") if part.strip()]
            head = text[end: text.find("\n" + indent + "}", end)]
            head = head.split("\n" + indent + "{")[0]
            asked = re.findall(r"\brequires(?: \w+)? \{ ((?:.|\n)*?) \}(?:\n|$)", head)
            yield place(path, text[: found.start()].count("\n")), name, parameters, asked


def together():
    """5: facts asked by three functions or more, and pairs of parameters that stand in three signatures or more."""
    facts, pairs = collections.defaultdict(list), collections.defaultdict(list)
    for where, name, parameters, asked in signatures():
        for clause in asked:
            for fact in clause.split(" × "):
                facts[" ".join(fact.split()).strip("()")].append(name)
        for i, first in enumerate(parameters):
            for second in parameters[i + 1:]:
                pairs[first, second].append(name)
    for fact, names in sorted(facts.items(), key=lambda item: -len(item[1])):
        if len(names) >= 3:
            print(f"fact of {len(names)}: {fact}: {', '.join(names)}")
    for pair, names in sorted(pairs.items(), key=lambda item: -len(item[1])):
        if len(names) >= 3:
            print(f"pair of {len(names)}: {pair[0]}, {pair[1]}: {', '.join(names)}")


def twins():
    """2: functions of one body, once names, types and numbers are left out."""
    bodies = collections.defaultdict(list)
    for path, lines in sources():
        text = "\n".join(lines)
        for found in re.finditer(r"\bfn (\w+)[\s\S]*?\n(?P<indent> *)\{\n([\s\S]*?)\n(?P=indent)\}", text):
            shape = re.sub(r"\b\w+\b", lambda word: word[0] if word[0] in KEYWORDS else "x", found[3])
            shape = re.sub(r"\s+", " ", shape)
            bodies[shape].append((place(path, text[: found.start()].count("\n")), found[1]))
    for shape, found in sorted(bodies.items(), key=lambda item: -len(item[1])):
        if len(found) > 1 and len(shape) > 20:
            print(", ".join(f"{where} {name}" for where, name in found))


KEYWORDS = {"if", "else", "while", "for", "in", "match", "return", "let", "mut", "as", "loop"}

if __name__ == "__main__":
    for point in sys.argv[1:] or ["1", "2", "3", "4", "5", "6", "7"]:
        print(f"-- {point}")
        {"2": twins, "5": together}.get(point, lambda: by_pattern(PATTERNS[point]))()
