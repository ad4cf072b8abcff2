#!/usr/bin/env python3
"""The wrong programs that were tried against each public function of the libraries.

tools/wrong.py list [CRATE...]   each public function, and each that a type has for a trait, with the edits that make a
                                 wrong program of it, and each edit that cannot be applied; the exit status is 1 if
                                 there is such an edit, or a function with fewer than two
tools/wrong.py try CRATE...      try the edits of crates/CRATE/tried/ with `rt must-fail`, which shows for each the first
                                 part of the proof that is missed; the exit status is 1 if one is not refused

The gate tries the edits of crates/CRATE/must-fail/. Those of crates/CRATE/tried/ are left to this program, since each
proves a part of its crate again. An edit counts for the function whose text it changes or, where it changes a `use`
line, that names what this brings; where that is a private function or a constant, for the public functions of the crate
that use it. Edits of definitions are not listed as wrong programs. An edit can be applied where each of its old texts
stands just once in its file and has a new one. Programs are not listed, nor is tikuwero_c, whose functions pass their
calls on to those of tikuwero, under the same contracts.
"""
import re
import shutil
import subprocess
import sys
import tempfile
from collections import namedtuple
from pathlib import Path

TOP = Path(__file__).resolve().parent.parent
NOT_LISTED = {"ieee_vectors", "record_tests", "evidence_tests", "listing", "listings", "replay", "tikuwero_c"}
IMPL = re.compile(r"^impl(?:<[^>\n]*>)? ([\w<>]+) for (\w+)\S* \{\n.*?^\}$", re.M | re.S)
HEAD = re.compile(r'^ *(pub(?:\(crate\))? )?(?:extern "C" )?(?:fn|const) (\w+)', re.M)
USE = re.compile(r"\b(\w+)\(|\b([A-Z][A-Z0-9_]+)\b")
BROUGHT = re.compile(r"use [\w:]+::(\w+|\{[\w, ]+\});")
# `of`: of a function that a type has for a trait, both, as "From<Pass> for u32::"
Item = namedtuple("Item", "of name file public text")
Edit = namedtuple("Edit", "label replacements")
Replacement = namedtuple("Replacement", "file old new")


def listed():
    lines = (TOP / "crates.txt").read_text().splitlines()
    return [line.split(":")[0].split()[0] for line in lines if line and not line.startswith("#")]


def items_of(crate):
    """The functions and constants of a crate, each with its text up to the next one."""
    for path in sorted((crate / "src").rglob("*.rt")):
        text = path.read_text()
        heads = list(HEAD.finditer(text))
        ends = [head.start() for head in heads[1:]] + [len(text)]
        impls = [(impl.span(), f"{impl[1]} for {impl[2]}::") for impl in IMPL.finditer(text)]
        for head, end in zip(heads, ends):
            of = "".join(name for (first, last), name in impls if first < head.start() < last)
            yield Item(of, head[2], str(path.relative_to(crate)), head[1] == "pub ", text[head.start() : end])


def replacements_of(text):
    """A `file` line holds for the pairs of `old` and `new` after it; every other line is a comment. An `old` that a `file`,
    another `old` or the end follows has None for its new text."""
    file = old = ""
    for word, rest in re.findall(r"^(file: |old: |new: ?)(.*)$", text + "\nfile: the end", re.M):
        if word.startswith("new:"):
            yield Replacement(file, old, rest)
            old = ""
        else:
            if old:
                yield Replacement(file, old, None)
            file, old = (rest, "") if word == "file: " else (file, rest)


def edits_of(crate):
    for path in sorted(crate.glob("must-fail/*.edit")) + sorted(crate.glob("tried/*.edit")):
        yield Edit(f"{path.parent.name}/{path.stem}", list(replacements_of(path.read_text())))


def fault_of(crate, edit):
    """Why an edit cannot be applied, one replacement after the other as `rt must-fail` does it, or None."""
    texts = {}
    for file, old, new in edit.replacements:
        if not (crate / file).is_file():
            return f"there is no file `{file}`"
        text = texts.setdefault(file, (crate / file).read_text())
        times = text.count(old) if old else 0
        if times != 1:
            return f"`{old}` stands {times} times in {file}"
        if new is None:
            return f"`{old}` has no new text"
        texts[file] = text.replace(old, new)
    return None if edit.replacements else "it has no old and new text"


def brought(line):
    """The names that a `use` line brings."""
    found = BROUGHT.match(line)
    return set(re.findall(r"\w+", found[1])) if found else set()


def changes(edit, item):
    words = set(re.findall(r"\w+", item.text))
    return any(file == item.file and (old in item.text or words & brought(old)) for file, old, _ in edit.replacements)


def labels_of(item, inner, edits, seen):
    labels = {Path(edit.label).name for edit in edits if changes(edit, item)}
    used = {call or constant for call, constant in USE.findall(item.text)}
    for name in used & inner.keys() - seen:
        labels |= labels_of(inner[name], inner, edits, seen | {name})
    return labels


def show_functions(name, crate, edits):
    """Prints the public functions of a crate with their edits; how many of them have fewer than two."""
    lacking = 0
    items = list(items_of(crate))
    inner = {item.name: item for item in items if not item.public or item.name.isupper()}
    for item in items:
        if (item.public or item.of) and not item.name.isupper():
            labels = labels_of(item, inner, edits, {item.name})
            lacking += len(labels) < 2
            print(f"{name}::{item.of}{item.name}: {', '.join(sorted(labels)) or 'none'}")
    return lacking


def show(crates):
    lacking, faults = 0, []
    for name in crates:
        crate = TOP / "crates" / name
        if not crate.is_dir():
            sys.exit(f"crates/{name}: no such folder")
        edits = list(edits_of(crate))
        found = ((edit, fault_of(crate, edit)) for edit in edits)
        faults += [f"crates/{name}/{edit.label}.edit: {fault}" for edit, fault in found if fault]
        if name not in NOT_LISTED:
            lacking += show_functions(name, crate, edits)
    for fault in faults:
        print(fault)
    print(f"{lacking} public functions with fewer than two; {len(faults)} edits that cannot be applied")
    return lacking > 0 or bool(faults)


def attempt(crates):
    with tempfile.TemporaryDirectory() as folder:
        copy = Path(folder) / "copy"
        shutil.copytree(TOP, copy, ignore=shutil.ignore_patterns("must-fail", ".git", "target", "oracle", "bench"))
        for crate in (copy / "crates" / name for name in crates):
            if not (crate / "tried").is_dir():
                sys.exit(f"crates/{crate.name}/tried: no such folder")
            (crate / "tried").rename(crate / "must-fail")
        status = subprocess.run(["rt", "must-fail", *crates], cwd=copy).returncode
    return status != 0


if __name__ == "__main__":
    action, names = sys.argv[1:2], sys.argv[2:]
    if action == ["list"]:
        sys.exit(show(names or listed()))
    if action == ["try"] and names:
        sys.exit(attempt(names))
    sys.exit(__doc__)
