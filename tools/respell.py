#!/usr/bin/env python3
"""Spells the repository's own definitions and lemmas as today's Rattle does: words in snake case, modules in camel case.

usage: tools/respell.py        at the top of the repository, once, right after the toolchain's port.py

A name turns if a file of specs/ or a file of lemmas right in proofs/ declares it, as a definition, a lemma, a constructor or a field: `wordsOf`
becomes `words_of`, `run-le` becomes `run_le`. The folders specs/inner and specs/theory become specs/Inner and specs/Theory. Variables in camel
case turn as well. What stays: types, Rust's names, the names that Rattle makes of the code (behind a dot in the files of one function's proof),
and a name in a file that imports it from a library. Comments, edits and the papers follow the code. It prints names that fall together.
"""

import collections
import glob
import os
import re
import subprocess
import sys

NAME = re.compile(r"(?<![\w'?·-])[A-Za-z_][\w'?]*(?:-[\w'?]+)*")
DECLARED = re.compile(r"(?m)^ *(?:(?:abbrev|unfoldable|pub) )*([a-z][\w'?-]*)(?: (?:\{[^{}\n]*\}|\([^()\n]*\)))* :(?!:)")
SEVERAL = re.compile(r"(?m)^ *(?:(?:abbrev|unfoldable|pub) )*((?:[a-z][\w'?-]* )+):(?!:)")
USED = re.compile(r"\buse ([\w.']+)\.\{([^}]*)\}")
CAMEL = re.compile(r"[a-z][\w'?]*[A-Z]")
# Lemmas that port.py spelled like a definition that turns here: a lemma that would meet a definition is its `_law`.
LAWS = {"closed": ("row_before",), "printing": ("units_in",)}


def own_crates():
    with open("crates.txt", encoding="utf-8") as lines:
        return {line.split(":")[0].split()[0] for line in lines if ":" in line and not line.startswith("#")}


def found(*patterns):
    return sorted(path for pattern in patterns for path in glob.glob(pattern, recursive=True) if "/out/" not in path)


def text_of(path):
    with open(path, encoding="utf-8") as opened:
        return opened.read()


def from_libraries(text, crates):
    names = set()
    for module, listed in USED.findall(text):
        steps = module.split(".")
        if steps[0] != "Rattle" or len(steps) < 2 or steps[1] not in crates:
            names.update(name.split(" as ")[0].strip() for name in listed.split(","))
    return names


def snake(name):
    return re.sub(r"(?<=[a-z0-9'])[A-Z]", lambda found: "_" + found[0].lower(), name).replace("-", "_")


def declared_names():
    names = set()
    for path in found("crates/*/specs/**/*.antt", "crates/*/proofs/*.antt"):
        text = re.sub(r"(?m)^--.*$", "", text_of(path))
        names.update(DECLARED.findall(text))
        for several in SEVERAL.findall(text):
            names.update(several.split())
    return {name for name in names if snake(name) != name}


def camel_names(paths):
    names = set()
    for path in paths:
        names.update(name for name in NAME.findall(text_of(path)) if CAMEL.match(name))
    return names


def table_of(names, logic):
    """Old and new spelling. A lemma that would be spelled like something else is that one's `_law`."""
    plain = {name for path in logic if not path.endswith(".rt") for name in NAME.findall(text_of(path)) if snake(name) == name}
    camel = {snake(name) for name in names if CAMEL.match(name) and "-" not in name}
    met = lambda name: "-" in name and snake(name) in plain | camel
    return {name: snake(name) + ("_law" if met(name) else "") for name in names}


def turn(text, table, made, kept):
    """The text in its new spelling. `made`: whether names behind a dot may be Rattle's own; those turn only in camel case."""

    def turned(match):
        name = match[0]
        if name in kept or name not in table:
            return name
        behind_dot = match.start() > 0 and text[match.start() - 1] == "."
        if made and behind_dot and "-" in name:
            return name
        return table[name]

    return NAME.sub(turned, text)


def modules(text):
    for old, new in (("inner", "Inner"), ("theory", "Theory")):
        text = re.sub(rf"\bspecs\.{old}\b", f"specs.{new}", text)
        text = re.sub(rf"\bspecs/{old}\b", f"specs/{new}", text)
        text = re.sub(rf"(?m)^pub mod {old}$", f"pub mod {new}", text)
    return text


def meetings(path, before, table, kept):
    groups = collections.defaultdict(set)
    for name in NAME.findall(re.sub(r"(?m)(--|//).*$", "", before)):
        groups[table.get(name, name) if name not in kept else name].add(name)
    for new, olds in sorted(groups.items()):
        if len(olds) > 1:
            print(f"together: {path}: {new}: {' '.join(sorted(olds))}")


def main():
    crates = own_crates()
    logic = found("crates/*/specs/**/*.antt", "crates/*/proofs/**/*.antt", "crates/*/src/**/*.rt")
    beside = found("crates/*/must-fail/*.edit", "crates/*/tried/*.edit")
    papers = found("docs/*.md", "README.md", "tools/wrong.py")
    shared = table_of(declared_names() | camel_names(logic), logic)
    for path in logic + beside + papers:
        before = text_of(path)
        crate = path.split("/")[1] if path.startswith("crates/") else ""
        table = dict(shared)
        table.update((name, name + "_law") for name in LAWS.get(crate, ()) if path in logic and path.endswith(".antt"))
        paper = not path.startswith("crates/")
        if paper:
            own = {name: new for name, new in table.items() if re.search(r"[A-Z-]", name)}
            text = re.sub(r"`[^`\n]+`", lambda span: turn(span[0], own, False, set()), before)
        else:
            kept = from_libraries(before, crates) if path in logic else set()
            made = bool(re.search(r"/proofs/\w+/", path))
            if path in logic:
                meetings(path, before, table, kept)
            text = turn(before, table, made, kept)
        text = modules(text)
        if text != before:
            with open(path, "w", encoding="utf-8") as opened:
                opened.write(text)
    for old, new in (("inner", "Inner"), ("theory", "Theory")):
        for path in found(f"crates/*/specs/{old}.antt", f"crates/*/specs/{old}"):
            subprocess.run(["git", "mv", path, path[: path.rindex("/") + 1] + os.path.basename(path).replace(old, new)], check=True)
    print(f"respell: {len(shared)} names")


if __name__ == "__main__":
    sys.exit(main())
