#!/usr/bin/env python3
"""Makes the test program's stdin and stdout: records around every limit of document 01, and what its table says of each.

The table is written out here from the document's text, apart from the Rattle code. src/main.rt has the form of the input.
"""
import math
import os
import struct

NONE = 0xFFFFFFFF


# ---- document 01, "What the decoder says no with"

def refusal(record):
    if not 64 <= len(record) <= 65536:
        return 1
    end = len(record) - 64
    (edition, f, mask, n, nuclei, b, bounds, a, anchors, d, added, c, scores, m, candidates, costs) = \
        struct.unpack("<16I", record[end:])
    if edition != 1:
        return 2
    if f > 2048 or n > 32 or max(b, a, d, c) > 64 or m > 16 or c == 0 or (a == 0 and d > 0):
        return 3
    lengths = [(f, mask), (4 * n, nuclei), (4 * b, bounds), (4 * a, anchors), (4 * d, added),
               (4 * (n + a) * c, scores), (24 * m, candidates), (1228, costs)]
    if any(back < length or back > end for length, back in lengths):
        return 4

    def part(back, length):
        return record[end - back:end - back + length]

    if any(byte > 1 for byte in part(mask, f)):
        return 5
    for count, back in [(n, nuclei), (b, bounds), (a, anchors), (d, added)]:
        frames = struct.unpack(f"<{count}I", part(back, 4 * count))
        if any(frame > 4095 for frame in frames) or any(x >= y for x, y in zip(frames, frames[1:])):
            return 5
    block = part(costs, 1228)
    per_frame, insertion, unvoiced, start, stop = struct.unpack("<ddfII", block[:28])
    if not (start == NONE and stop == NONE) and not start <= stop <= 4095:
        return 5
    tables = struct.unpack("<150d", block[28:])
    figures = [(x, -1e6, 1e6) for x in struct.unpack(f"<{(n + a) * c}f", part(scores, 4 * (n + a) * c))]
    figures += [(per_frame, -1e3, 1e3), (insertion, -1e3, 1e3), (unvoiced, -1e6, 1e6)]
    figures += [(x, -1e6, 0) for x in (tables if a > 0 else tables[:75])]
    if any(not math.isfinite(x) or not low <= x <= high for x, low, high in figures):
        return 6
    if m == 0:
        return 7
    seen = set()
    for i in range(m):
        entry = part(candidates, 24 * m)[24 * i:24 * i + 24]
        ident, units = struct.unpack("<II", entry[:8])
        if ident in seen:
            return 8
        seen.add(ident)
        if not 1 <= units <= 16:
            return 9
        if any(column >= c for column in entry[8:8 + units]):
            return 10
    return 0


def refusal_with(record, best, back, out):
    own = refusal(record)
    if own:
        return own
    m = struct.unpack("<I", record[-12:-8])[0]
    return 11 if best < 1088 or back < 1088 or out < 54 * m else 0


# ---- the base records

def words(*values):
    return struct.pack(f"<{len(values)}I", *values)


def costs_block(per_frame, insertion, unvoiced, start, stop, first, second):
    return struct.pack("<ddfII150d", per_frame, insertion, unvoiced, start, stop, *first, *second)


def sample():
    """Document 01's sample phrase."""
    first = [0.0] * 75
    first[10 - 6] = -0.25
    body = bytes([1] * 20) + words(7, 4, 14) + struct.pack("<f", 3)
    body += words(9, 2) + bytes(16) + words(3, 1) + bytes(16)
    body += costs_block(0.5, -2, -4, 4, 14, first, [0.0] * 75)
    return body + words(1, 20, 1312, 1, 1292, 2, 1288, 0, 1280, 0, 1280, 1, 1280, 2, 1276, 1228)


FULL_SCORES = 4 * (32 + 64) * 64


def full():
    """Every count at its limit, figures at the ends of their ranges. The four lists share one run of frames; the mask and
    the scores lie in the zeros before the base."""
    first = [-1e6] + [0.0] * 73 + [-0.0]
    body = words(*[7 * i for i in range(64)])
    for i in range(16):
        body += words(1000 + i, 1 + i) + bytes((16 * i + j) % 64 for j in range(16))
    body += costs_block(1000, -1000, -1e6, 0, 4095, first, [-1e6] + [-0.5] * 74)
    end = len(body)
    return body + words(1, 2048, end + 2048, 32, end, 64, end, 64, end, 64, end, 64, end + FULL_SCORES, 16, end - 256, 1228)


BASES = [sample(), full()]
SAMPLE, FULL = 0, 1
LONG = [len(BASES[SAMPLE]), len(BASES[FULL]) + FULL_SCORES]
ENOUGH = (1088, 1088, 16 * 54)
cases = []


def case(base, *changes, long=None, areas=ENOUGH):
    cases.append((LONG[base] if long is None else long, base, [x for change in changes for x in change], areas))


def put(base, offset, data):
    """Bytes at an offset of the base, by their places from the record's last byte."""
    return [(len(BASES[base]) - 1 - offset - i, byte) for i, byte in enumerate(data)]


def u32(base, offset, value):
    return put(base, offset, words(value))


def u64(base, offset, value):
    return put(base, offset, struct.pack("<Q", value))


def trailer(base, word, value):
    return u32(base, len(BASES[base]) - 64 + 4 * word, value)


# offsets in the bases
NUCLEUS, BOUNDS, SCORE, CANDIDATE, COSTS = 20, 24, 32, 36, 84
FULL_CANDIDATE, FULL_COSTS = 256, 640
FIRST, SECOND = 28, 628

# 1: sizes
for size in [0, 1, 63, 64, 65, LONG[SAMPLE], LONG[SAMPLE] + 1, 65535, 65536, 65537, 65540]:
    case(SAMPLE, long=size)
case(FULL)

# 2: edition
for value in [0, 2, 256, NONE]:
    case(SAMPLE, trailer(SAMPLE, 0, value))

# 3: each count around its limit, C = 0, A = 0 with D
for word, limit in [(1, 2048), (3, 32), (5, 64), (7, 64), (9, 64), (11, 64), (13, 16)]:
    for value in [limit - 1, limit, limit + 1, NONE]:
        case(FULL, trailer(FULL, word, value))
for base in [SAMPLE, FULL]:
    case(base, trailer(base, 11, 0))
    case(base, trailer(base, 7, 0))
    case(base, trailer(base, 7, 0), trailer(base, 9, 0))
case(SAMPLE, trailer(SAMPLE, 9, 1))
case(SAMPLE, trailer(SAMPLE, 7, 1), trailer(SAMPLE, 8, 1288))

# 4: each pointer at its least, its greatest and one past both
SAMPLE_LENGTHS = [(2, 20), (4, 4), (6, 8), (8, 0), (10, 0), (12, 4), (14, 48), (15, 1228)]
FULL_LENGTHS = [(2, 2048), (4, 128), (6, 256), (8, 256), (10, 256), (12, FULL_SCORES), (14, 384), (15, 1228)]
for base, lengths in [(SAMPLE, SAMPLE_LENGTHS), (FULL, FULL_LENGTHS)]:
    for word, length in lengths:
        for value in [length, length - 1, LONG[base] - 64, LONG[base] - 63, NONE]:
            case(base, trailer(base, word, value % 2**32))

# 5: mask bytes, frames, equal neighbours, speech edges
for offset, value in [(0, 0), (0, 2), (10, 0), (19, 2), (19, 255)]:
    case(SAMPLE, put(SAMPLE, offset, [value]))
for value in [0, 4095, 4096, NONE]:
    case(SAMPLE, u32(SAMPLE, NUCLEUS, value))
for value in [13, 14, 15, 4095, 4096]:
    case(SAMPLE, u32(SAMPLE, BOUNDS, value))
for value in [3, 4, 5, 4095, 4096]:
    case(SAMPLE, u32(SAMPLE, BOUNDS + 4, value))
for i in [1, 31, 32, 62, 63]:
    for value in [7 * i - 7, 7 * i - 6, 7 * i + 6, 7 * i + 7, 4095, 4096]:
        case(FULL, u32(FULL, 4 * i, value))
for start, stop in [(NONE, NONE), (NONE, 4), (4, NONE), (4, 14), (14, 14), (15, 14), (0, 0), (0, 4095), (0, 4096),
                    (4095, 4095), (4096, 4096), (NONE - 1, NONE), (NONE, NONE - 1)]:
    case(SAMPLE, u32(SAMPLE, COSTS + 20, start), u32(SAMPLE, COSTS + 24, stop))

# 6: the ends of each range and the next values, both zeros, infinities, NaNs
MILLION_32, MILLION_64, THOUSAND_64 = 0x49742400, 0x412E848000000000, 0x408F400000000000


def around(limit, bits):
    sign, infinity, quiet = 1 << bits - 1, {32: 0xFF << 23, 64: 0x7FF << 52}[bits], {32: 1 << 22, 64: 1 << 51}[bits]
    sizes = [0, 1, limit - 1, limit, limit + 1, infinity, infinity + 1, infinity + quiet, sign - 1]
    return [size + side for size in sizes for side in (0, sign)]


for value in around(MILLION_32, 32):
    case(SAMPLE, u32(SAMPLE, SCORE, value))
    case(SAMPLE, u32(SAMPLE, COSTS + 16, value))
for value in around(THOUSAND_64, 64):
    case(SAMPLE, u64(SAMPLE, COSTS, value))
    case(SAMPLE, u64(SAMPLE, COSTS + 8, value))
for value in around(MILLION_64, 64):
    for entry in [0, 37, 74]:
        case(SAMPLE, u64(SAMPLE, COSTS + FIRST + 8 * entry, value))
    case(SAMPLE, u64(SAMPLE, COSTS + SECOND, value))  # unchecked: A = 0
    for entry in [0, 74]:
        case(FULL, u64(FULL, FULL_COSTS + SECOND + 8 * entry, value))
for entry in [0, 63, 64, 32 * 64 - 1, 32 * 64, 96 * 64 - 1]:  # first and last scores, also of the added rows
    for value in [MILLION_32, MILLION_32 + 1, 0x7FC00000]:
        case(FULL, u32(FULL, 4 * entry - FULL_SCORES, value))

# 7: no candidates, whatever their pointer, and after 4 to 6
for value in [0, 1276, LONG[SAMPLE] - 64, LONG[SAMPLE] - 63]:
    case(SAMPLE, trailer(SAMPLE, 13, 0), trailer(SAMPLE, 14, value))
case(SAMPLE, trailer(SAMPLE, 13, 1))

# 8 to 10
for value in [9, 3, 0, 8, 10, 9 + 256]:
    case(SAMPLE, u32(SAMPLE, CANDIDATE + 24, value))
for value in [0, 1, 2, 15, 16, 17, 256, 0x10001, NONE]:
    case(SAMPLE, u32(SAMPLE, CANDIDATE + 4, value))
    case(SAMPLE, u32(SAMPLE, CANDIDATE + 28, value))
for used, column in [(2, 0), (2, 1), (2, 2), (2, 15), (15, 14), (15, 15), (16, 15)]:
    case(SAMPLE, u32(SAMPLE, CANDIDATE + 4, used), put(SAMPLE, CANDIDATE + 8 + column, [1]))
for value in [63, 64, 65, 255]:
    case(FULL, put(FULL, FULL_CANDIDATE + 8, [value]))
    case(FULL, put(FULL, FULL_CANDIDATE + 24 * 15 + 8 + 15, [value]))
    case(FULL, put(FULL, FULL_CANDIDATE + 24 * 14 + 8 + 15, [value]))  # unused
for i in [0, 7, 14]:
    case(FULL, u32(FULL, FULL_CANDIDATE + 24 * 15, 1000 + i))
    case(FULL, u32(FULL, FULL_CANDIDATE + 24 * i, 1015))

# candidate by candidate: 10 of candidate 0 before 8 of candidate 1; 8, 9 and 10 of one
TWICE, COLUMN = u32(SAMPLE, CANDIDATE + 24, 9), put(SAMPLE, CANDIDATE + 8, [1])
LATE_UNITS, LATE_COLUMN = u32(SAMPLE, CANDIDATE + 28, 0), put(SAMPLE, CANDIDATE + 32, [1])
case(SAMPLE, COLUMN, TWICE)
case(SAMPLE, u32(SAMPLE, CANDIDATE + 4, 0), TWICE)
case(SAMPLE, u32(SAMPLE, CANDIDATE + 4, 17), COLUMN)
case(SAMPLE, TWICE, LATE_UNITS, LATE_COLUMN)
case(SAMPLE, TWICE, LATE_COLUMN)
case(SAMPLE, u32(SAMPLE, CANDIDATE + 28, 17), LATE_COLUMN)

# several causes at once
CAUSES = [trailer(SAMPLE, 0, 2), trailer(SAMPLE, 11, 65), trailer(SAMPLE, 2, LONG[SAMPLE] - 63), put(SAMPLE, 0, [2]),
          u32(SAMPLE, SCORE, MILLION_32 + 1), trailer(SAMPLE, 13, 0), TWICE]
for i, cause in enumerate(CAUSES):
    for other in CAUSES[i:]:
        case(SAMPLE, cause, other)
    case(SAMPLE, *CAUSES[i:])
for size in [63, 65537]:
    case(SAMPLE, *CAUSES[:1], long=size)

# shared sections, unaligned ones, empty ones anywhere
case(SAMPLE, trailer(SAMPLE, 3, 2), trailer(SAMPLE, 4, 1288))
case(SAMPLE, trailer(SAMPLE, 1, 20), trailer(SAMPLE, 2, 1228))
for word, value in [(12, 1312), (14, 600), (15, 1312), (4, 1291), (6, 1287), (8, 0), (10, 1)]:
    case(SAMPLE, trailer(SAMPLE, word, value))
for count, word in [(1, 2), (3, 4), (5, 6)]:
    case(SAMPLE, trailer(SAMPLE, count, 0), trailer(SAMPLE, word, 0))
case(SAMPLE, trailer(SAMPLE, 2, 1319), long=LONG[SAMPLE] + 7)

# 11, after every other number
for areas in [(1088, 1088, 108), (1087, 1088, 108), (1088, 1087, 108), (1088, 1088, 107), (0, 0, 0), (2**31,) * 3]:
    case(SAMPLE, areas=areas)
for areas in [(1088, 1088, 864), (1088, 1088, 863), (1087, 1088, 864)]:
    case(FULL, areas=areas)
for words_lent in [53, 54]:
    case(SAMPLE, trailer(SAMPLE, 13, 1), areas=(1088, 1088, words_lent))
for cause in CAUSES + [COLUMN, LATE_UNITS]:
    case(SAMPLE, cause, areas=(0, 0, 0))

# ---- writing

starts, at = [], 4
for base in BASES:
    starts.append(at)
    at += len(base)
data, lines = words(at) + b"".join(BASES), []
for long, base, changes, areas in cases:
    data += words(long, starts[base], len(BASES[base]), *areas, len(changes))
    record = bytearray((bytes(long) + BASES[base])[len(BASES[base]):])
    for place, value in changes:
        data += words(place, value)
        if place < long:
            record[long - 1 - place] = value
    lines.append(f"{refusal(bytes(record))} {refusal_with(bytes(record), *areas)}")
folder = os.path.dirname(os.path.abspath(__file__))
with open(os.path.join(folder, "stdin"), "wb") as f:
    f.write(data)
with open(os.path.join(folder, "stdout"), "w") as f:
    f.write("\n".join(lines) + "\n")
