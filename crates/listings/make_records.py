"""Writes the files stdin, which holds the records, and stdout: the refusals, and what the program LISTING prints for each other record.

The stored stdout has the original's listings, by `listing` of oracle/ (oracle/src/bin/listing.rs). From this folder, where that is built:

    LISTING=../../oracle/target/release/listing python3 make_records.py
"""
import os
import random
import struct
import subprocess
import sys


def record(mask, nuclei, bounds, anchors, added, scores, columns, candidates, costs, speech, tables, edition=1):
    """A record with its sections in trailer order."""
    frames = lambda xs: b"".join(struct.pack("<I", x) for x in xs)
    entries = b"".join(struct.pack("<II", i, len(c)) + bytes(c) + bytes(16 - len(c)) for i, c in candidates)
    block = struct.pack("<ddf", *costs) + struct.pack("<II", *speech)
    block += b"".join(struct.pack("<75d", *t) for t in tables)
    parts = [bytes(mask), frames(nuclei), frames(bounds), frames(anchors), frames(added),
             b"".join(struct.pack("<f", s) for s in scores), entries, block]
    end = sum(map(len, parts))
    pointers, at = [], 0
    for p in parts:
        pointers.append(end - at)
        at += len(p)
    counts = [len(mask), len(nuclei), len(bounds), len(anchors), len(added), columns, len(candidates)]
    words = [edition]
    for c, p in zip(counts, pointers):
        words += [c, p]
    return b"".join(parts) + struct.pack("<16I", *words, pointers[7])


def ascending(rng, count, top):
    return sorted(rng.sample(range(top), count))


def steps(rng, top):
    """Boundaries some frames apart, mostly as far as a unit is long."""
    at, out = rng.randrange(8), []
    while at < top and len(out) < 12:
        out.append(at)
        at += rng.choice([3, 5, 6, 7, 9, 14, 20, 81])
    return out


def phrase(rng):
    frames = rng.choice([12, 40, 90, 160])
    voiced = rng.choice([0.0, 0.8, 0.95, 1.0, 1.0, 1.0, 1.0, 1.0, 1.0])
    mask = [rng.random() < voiced for _ in range(frames)]
    nuclei = ascending(rng, rng.randrange(1, 6), frames + 4)
    bounds = steps(rng, frames + 4)
    anchors = ascending(rng, rng.choice([0, 0, 2, 4, 6]), frames)
    added = steps(rng, frames) if anchors else []
    columns = rng.randrange(1, 4)
    scores = [rng.choice([-2.5, 0.0, 1.0, 3.25, 7.0]) for _ in range((len(nuclei) + len(anchors)) * columns)]
    candidates = [(10 + i, [rng.randrange(columns) for _ in range(rng.randrange(1, 5))]) for i in range(rng.randrange(1, 4))]
    costs = (rng.choice([0.0, 0.5, -0.25]), rng.choice([0.0, -2.0, 1.5]), rng.choice([-4.0, 0.0, 1000000.0]))
    start = rng.randrange(frames)
    speech = rng.choice([(start, start + rng.randrange(20)), (0, frames), (0, frames), (2, frames + 9), (4294967295, 4294967295)])
    table = lambda: [-rng.choice([0.0, 0.25, 3.0]) for _ in range(75)]
    return record(mask, nuclei, bounds, anchors, added, scores, columns, candidates, costs, speech, (table(), table()))


def damaged(rng):
    """One record for each refusal from 1 to 10."""
    zeros = (0.0,) * 75
    make = lambda **changes: record(**{**dict(mask=[1] * 8, nuclei=[3], bounds=[0, 6], anchors=[], added=[], scores=[1.0], columns=1,
        candidates=[(1, [0])], costs=(0.0, 0.0, 0.0), speech=(0, 8), tables=(zeros, zeros)), **changes})
    whole = make()
    return [(1, whole[-60:]), (2, make(edition=2)), (3, make(columns=65)), (4, whole[40:]), (5, make(bounds=[6, 6])),
            (6, make(costs=(1001.0, 0.0, 0.0))), (7, make(candidates=[])), (8, make(candidates=[(1, [0]), (1, [0])])),
            (9, make(candidates=[(1, [])])), (10, make(candidates=[(1, [1])]))]


def main():
    rng = random.Random(10)
    cases = [(0, phrase(rng)) for _ in range(30)] + damaged(rng)
    rng.shuffle(cases)
    with open("stdin", "wb") as f:
        f.write(b"".join(struct.pack("<H", len(r)) + r for _, r in cases))
    with open("stdout", "wb") as f:
        for refusal, r in cases:
            if refusal:
                f.write(b"refused %d\n" % refusal)
            else:
                f.write(subprocess.run([os.environ["LISTING"]], input=r, stdout=subprocess.PIPE, check=True).stdout)


if __name__ == "__main__":
    sys.exit(main())
