#!/usr/bin/env python3
"""Has tools/phrase.py look at many records in one process, for src/bin/phrase_tool.rs.

Standard input has the records, each behind its length as a u32. For each a line is printed: the number of the refusal that `check`
finds, or 0; then 'same' where the text that `show` gives makes the same bytes, 'other' where it does not, or '-' where there is no
text; then the refusal's sentence.
"""
import struct
import sys
from pathlib import Path

sys.dont_write_bytecode = True
sys.path.insert(0, str(Path(__file__).resolve().parent.parent / "tools"))
from phrase import Slip, check, make, show


def again(record, accepted):
    """The text of an accepted record makes it without the flag."""
    try:
        text = show(record)
    except Slip:
        return "-"
    return "same" if make(text, refused=not accepted) == record else "other"


for length in iter(lambda: sys.stdin.buffer.read(4), b""):
    record = sys.stdin.buffer.read(*struct.unpack("<I", length))
    found = check(record)
    print(found.number if found else 0, again(record, not found), found.sentence() if found else "", flush=True)
