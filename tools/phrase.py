#!/usr/bin/env python3
"""Makes phrase records from plain text, shows a record as such text, says which refusal a record gets, and shows result words.

    phrase.py make [--refused] < text > record    --refused: also a record that the decoder refuses
    phrase.py show < record > text                text that makes the same bytes again, with --refused where the record is refused
    phrase.py check < record                      'accepted', or the refusal and the first place that earns it
    phrase.py entries < words > text              the entries of an accepted record, from the words that decoding wrote

docs/FORMAT.md has the items of the text, the refusals and the result words. What cannot be made or shown is said in one sentence on
standard error, with the number of the line or entry that it lies in; nothing is written then, and the exit status is 1. It is 1 also
where `check` finds a refusal, and 2 where the program is called in another way.
"""
import math
import re
import struct
import sys
from collections import namedtuple
from itertools import groupby

# What an edition allows: of each section as many as the trailer may count (of the scores, columns), and units of a candidate. A
# record of an edition that is not here is laid out as one of edition 1.
EDITIONS = {
    1: {"mask": 2048, "nuclei": 32, "boundaries": 64, "anchors": 64, "added-boundaries": 64, "scores": 64, "candidates": 16, "units": 16},
}
LISTS = ("nuclei", "boundaries", "anchors", "added-boundaries")
COUNTED = ("mask", *LISTS, "scores", "candidates")
SECTIONS = (*COUNTED, "costs")

TRAILER, LONGEST = 64, 65536
LONGEST_MADE = 2 * LONGEST
BYTE, WORD = 0xFF, 0xFFFFFFFF
HIGHEST_MASK_BYTE, LAST_FRAME = 1, 4095
NO_SPEECH = (WORD, WORD)

# The costs: three figures with their bytes and ranges, the two speech edges, then two tables of entries for units of 6 to 80 frames.
FIGURES = {"per-frame": (8, -1e3, 1e3), "insertion": (8, -1e3, 1e3), "unvoiced": (4, -1e6, 1e6)}
TABLES = ("duration", "added-duration")
SHORTEST_UNIT, LONGEST_UNIT = 6, 80
ENTRIES = LONGEST_UNIT - SHORTEST_UNIT + 1
SCORE_RANGE, ENTRY_RANGE = (-1e6, 1e6), (-1e6, 0)
COSTS = struct.Struct(f"<QQIII{ENTRIES}Q{ENTRIES}Q")

# An entry of the result: six words, and three for each unit that it has room for.
HEAD_WORDS, UNIT_WORDS, NO_ROW = 6, 3, WORD
PASSES = ("nuclei-strict", "count-strict", "count-relaxed", "nuclei-relaxed", "none", "unvoiced")
SCORE_LIMIT = 1e6

WORDS = ("", "stub", "edition", "size", "reach", "track", "cost", "bare", "twice", "units", "column")
FORMS = {
    "edition": "edition NUMBER",
    "columns": "columns NUMBER",
    "score": "score FIGURE ..., one for each column",
    "candidate": "candidate ID COLUMN ..., or candidate ID units NUMBER and every column byte",
    "per-frame": "per-frame FIGURE",
    "insertion": "insertion FIGURE",
    "unvoiced": "unvoiced FIGURE",
    "speech": "speech START END, or speech none",
    "duration": "duration FRAMES FIGURE, or duration FIRST-LAST FIGURE",
    "added-duration": "added-duration FRAMES FIGURE, or added-duration FIRST-LAST FIGURE",
    "place": "place SECTION BYTE",
    "bytes": "bytes BYTE VALUE ...",
    "unread": "unread SECTION COUNT POINTER, or unread costs POINTER",
}


class Slip(Exception):
    """Says in a sentence what cannot be made or shown."""


# ---- numbers as text


def number(word, most):
    digits = re.fullmatch(r"0*([0-9]+)", word, re.ASCII)
    if not digits:
        raise Slip(f"'{word}' is not a whole number from 0 on")
    if len(digits[1]) > len(str(most)) or int(digits[1]) > most:
        raise Slip(f"{word} is above {most}")
    return int(digits[1])


def bits_of(value, width):
    return int.from_bytes(struct.pack({4: "<f", 8: "<d"}[width], value), "little")


def value_of(bits, width):
    return struct.unpack({4: "<f", 8: "<d"}[width], bits.to_bytes(width, "little"))[0]


def figure(word, width):
    """The bit pattern of a float with so many bytes: of a decimal, of inf, -inf and nan, or 0x and all its digits."""
    if re.fullmatch(rf"0x[0-9a-fA-F]{{{2 * width}}}", word):
        return int(word, 16)
    decimal = re.fullmatch(r"[-+]?([0-9]+\.?[0-9]*|\.[0-9]+)(e[-+]?[0-9]+)?", word, re.ASCII | re.IGNORECASE)
    if not decimal and word not in ("inf", "-inf", "nan"):
        raise Slip(f"'{word}' is not a figure")
    try:
        bits = bits_of(float(word), width)
    except OverflowError:
        bits = bits_of(math.inf, width)
    if decimal and math.isinf(value_of(bits, width)):
        raise Slip(f"{word} is larger than an f{8 * width} can be")
    return bits


def figure_text(bits, width):
    """A short text that `figure` reads as the same bits."""
    value = value_of(bits, width)
    if math.isnan(value):
        return "nan" if bits == bits_of(math.nan, width) else f"0x{bits:0{2 * width}x}"
    if width == 4 and math.isfinite(value):
        texts = (f"{value:.{digits}g}" for digits in (6, 7, 8, 9))
        return next(text for text in texts if bits_of(float(text), width) == bits)
    return repr(value).removesuffix(".0")


def repeated(words, read):
    """Values of which each may be followed by '*' and a count: '1*20 0 1*3'."""
    values = []
    for word in words:
        value, star, count = word.partition("*")
        values += [read(value)] * (number(count, LONGEST_MADE) if star else 1)
    return values


def runs(values, text=str):
    """The values as `repeated` reads them."""
    pieces = [(text(value), len(list(same))) for value, same in groupby(values)]
    return [f"{value}*{count}" if count > 1 else value for value, count in pieces]


# ---- the bytes of a record


def lengths_of(limits, counts):
    """The bytes of each section, by the trailer's counts."""
    lengths = {name: 4 * counts[name] for name in LISTS}
    rows = counts["nuclei"] + counts["anchors"]
    lengths.update(mask=counts["mask"], scores=4 * rows * counts["scores"], costs=COSTS.size)
    lengths["candidates"] = (8 + limits["units"]) * counts["candidates"]
    return lengths


class Record:
    """The bytes of a record with a trailer, by what the trailer says. A section can be read only if it `reaches`."""

    def __init__(self, data):
        self.data, self.before = data, len(data) - TRAILER
        words = struct.unpack_from("<16I", data, self.before)
        self.edition = words[0]
        self.limits = EDITIONS.get(self.edition, EDITIONS[1])
        self.counts = dict(zip(COUNTED, words[1:15:2]))
        self.pointers = dict(zip(SECTIONS, (*words[2:15:2], words[15])))
        self.lengths = lengths_of(self.limits, self.counts)

    def reaches(self, name):
        return self.lengths[name] <= self.pointers[name] <= self.before

    def start(self, name):
        return self.before - self.pointers[name]

    def section(self, name):
        return self.data[self.start(name) : self.start(name) + self.lengths[name]]

    def frames(self, name):
        return struct.unpack(f"<{self.counts[name]}I", self.section(name))

    def rows(self):
        """The bit patterns of the scores."""
        columns, section = self.counts["scores"], self.section("scores")
        return [struct.unpack_from(f"<{columns}I", section, at) for at in range(0, len(section), max(4 * columns, 1))]

    def candidates(self):
        """Of each its id, its number of units and all its column bytes."""
        return list(struct.iter_unpack(f"<II{self.limits['units']}s", self.section("candidates")))

    def costs(self):
        """The bit patterns of the figures, the speech edges, and the bit patterns of the two tables."""
        words = COSTS.unpack(self.section("costs"))
        return dict(zip(FIGURES, words)), words[3:5], dict(zip(TABLES, (words[5 : 5 + ENTRIES], words[5 + ENTRIES :])))


# ---- which refusal a record gets


class Finding(namedtuple("Finding", "number where value why key")):
    """A ground of refusal. `where` is its section with index, row and column, or candidate and unit; under `key`, `Text.lines` has
    the line that gave it."""

    def sentence(self):
        return f"{self.where}: {self.value}, and {self.why}"


def check(data):
    """The first ground on which the decoder refuses a record whatever it is lent, or None."""
    return next(findings(data), None)


def findings(data):
    """Grounds in the decoder's order. No further one may be asked for: those after it take for granted that it is absent."""
    if not TRAILER <= len(data) <= LONGEST:
        yield Finding(1, "the record", f"{len(data)} bytes", f"it has to have {TRAILER} to {LONGEST}", ("record",))
    record = Record(data)
    if record.edition not in EDITIONS:
        yield Finding(2, "trailer", f"edition {record.edition}", "there is no such edition", ("edition",))
    yield from size_findings(record)
    for name in SECTIONS:
        if not record.reaches(name):
            why = f"it has to be from {record.lengths[name]}, its length, to {record.before}, the bytes before the trailer"
            yield Finding(4, name, f"pointer {record.pointers[name]}", why, (name,))
    yield from track_findings(record)
    yield from cost_findings(record)
    if not record.counts["candidates"]:
        yield Finding(7, "candidates", 0, "there has to be one", ("candidates",))
    yield from candidate_findings(record)


def size_findings(record):
    counts = record.counts
    for name in COUNTED:
        if counts[name] > record.limits[name]:
            unit = {"mask": "frames", "scores": "columns"}.get(name, name)
            yield Finding(3, name, f"{counts[name]} {unit}", f"there may be {record.limits[name]}", (name,))
    if not counts["scores"]:
        yield Finding(3, "scores", "0 columns", "there has to be one", ("scores", "columns"))
    if counts["added-boundaries"] and not counts["anchors"]:
        value = f"{counts['added-boundaries']} added-boundaries"
        yield Finding(3, "added-boundaries", value, "without an anchor there may be none", ("added-boundaries",))


def track_findings(record):
    for i, byte in enumerate(record.section("mask")):
        if byte > HIGHEST_MASK_BYTE:
            yield Finding(5, f"mask, index {i}", byte, f"a byte may be {HIGHEST_MASK_BYTE} at most", ("mask", i))
    for name in LISTS:
        last = -1
        for i, frame in enumerate(record.frames(name)):
            if frame > LAST_FRAME:
                yield Finding(5, f"{name}, index {i}", frame, f"a frame may be {LAST_FRAME} at most", (name, i))
            if frame <= last:
                yield Finding(5, f"{name}, index {i}", frame, f"it has to be above {last}, the frame before it", (name, i))
            last = frame
    start, end = record.costs()[1]
    if (start, end) != NO_SPEECH and not start <= end <= LAST_FRAME:
        why = f"the start may not be above the end, nor the end above {LAST_FRAME}"
        yield Finding(5, "costs, speech", f"{start} {end}", why, ("costs", "speech"))


def cost_findings(record):
    for r, row in enumerate(record.rows()):
        low, high = SCORE_RANGE
        if not all(low <= score <= high for score in struct.unpack(f"<{len(row)}f", struct.pack(f"<{len(row)}I", *row))):
            for c, bits in enumerate(row):
                yield from figure_findings(f"scores, row {r}, column {c}", bits, 4, low, high, ("scores", r))
    figures, _, tables = record.costs()
    for name, (width, low, high) in FIGURES.items():
        yield from figure_findings(f"costs, {name}", figures[name], width, low, high, ("costs", name))
    for name in TABLES if record.counts["anchors"] else TABLES[:1]:
        for frames, bits in enumerate(tables[name], SHORTEST_UNIT):
            yield from figure_findings(f"costs, {name} of {frames} frames", bits, 8, *ENTRY_RANGE, ("costs", name, frames))


def figure_findings(where, bits, width, low, high, key):
    if not low <= value_of(bits, width) <= high:
        yield Finding(6, where, figure_text(bits, width), f"it has to be from {low:.0f} to {high:.0f}", key)


def candidate_findings(record):
    seen, most, columns = {}, record.limits["units"], record.counts["scores"]
    for i, (ident, units, used) in enumerate(record.candidates()):
        where, key = f"candidates, candidate {i}", ("candidates", i)
        if ident in seen:
            yield Finding(8, where, f"id {ident}", f"candidate {seen[ident]} has it already", key)
        seen[ident] = i
        if not 1 <= units <= most:
            yield Finding(9, where, f"{units} units", f"it has to have 1 to {most}", key)
        for unit, column in enumerate(used[:units]):
            if column >= columns:
                yield Finding(10, f"{where}, unit {unit}", f"column {column}", f"it has to be below {columns}, the columns", key)


# ---- from text to a record


class Text:
    """A phrase as text describes it: what its lines give, and by which line."""

    def __init__(self, text):
        self.edition, self.columns, self.speech = 1, None, NO_SPEECH
        self.lists = {name: [] for name in ("mask", *LISTS)}
        self.rows, self.candidates = [], []
        self.figures = dict.fromkeys(FIGURES, 0)
        self.tables = {name: [0] * ENTRIES for name in TABLES}
        self.covered = {}
        self.places, self.loose, self.unread = {}, [], {}
        self.lines, self.line = {}, 1
        for line, content in enumerate(text.split("\n"), 1):
            words = content.split("#")[0].split()
            if words:
                self.line = line
                self.told(line, self.item, *words)
        self.counts = self.settled()

    def told(self, line, act, *args):
        """Has something done of which a slip is laid to a line."""
        try:
            return act(*args)
        except Slip as slip:
            raise Slip(f"line {line}: {slip}") from None

    def line_of(self, *keys):
        """The line of the first of these that has one; else the last line."""
        return next((self.lines[key] for key in keys if key in self.lines), self.line)

    def mark(self, *key):
        self.lines[key] = self.lines[key[:1]] = self.line

    def mark_once(self, *key):
        if key in self.lines:
            raise Slip(f"line {self.lines[key]} has given this already")
        self.mark(*key)

    def item(self, name, *words):
        form = Slip(f"the form is: {FORMS[name]}") if name in FORMS else None
        match name, words:
            case _, _ if name in self.lists:
                self.extend(name, words)
            case "edition", [word]:
                self.mark_once(name)
                self.edition = number(word, WORD)
            case "columns", [word]:
                self.mark_once("scores", name)
                self.columns = number(word, WORD)
            case "score", [_, *_]:
                self.mark("scores", len(self.rows))
                self.rows.append(repeated(words, lambda word: figure(word, 4)))
            case "candidate", [ident, *rest]:
                self.add_candidate(number(ident, WORD), rest, form)
            case ("per-frame" | "insertion" | "unvoiced"), [word]:
                self.mark_once("costs", name)
                self.figures[name] = figure(word, FIGURES[name][0])
            case "speech", (["none"] | [_, _]):
                self.mark_once("costs", name)
                self.speech = NO_SPEECH if words == ("none",) else tuple(number(word, WORD) for word in words)
            case ("duration" | "added-duration"), [frames, word]:
                self.set_entries(name, frames, figure(word, 8))
            case ("place" | "unread"), [section, *rest]:
                self.set_section(name, section, rest, form)
            case "bytes", [at, _, *_]:
                values = repeated(words[1:], lambda word: number(word, BYTE))
                self.loose.append((number(at, LONGEST_MADE), bytes(values), self.line))
            case _:
                raise form or Slip(f"there is no item '{name}'")

    def extend(self, name, words):
        if name == "mask":
            values = repeated(words, lambda word: number(word, BYTE))
        else:
            values = [number(word, WORD) for word in words]
        self.mark(name)
        already = len(self.lists[name])
        self.lines.update({(name, already + i): self.line for i in range(len(values))})
        self.lists[name] += values

    def add_candidate(self, ident, words, form):
        units = None
        if words[:1] == ["units"]:
            if len(words) < 2:
                raise form
            units = number(words[1], WORD)
            words = words[2:]
        self.mark("candidates", len(self.candidates))
        self.candidates.append((ident, units, repeated(words, lambda word: number(word, BYTE))))

    def set_entries(self, name, frames, bits):
        """A line may set anew what a line for more lengths has set, and nothing else."""
        first, dash, last = frames.partition("-")
        if not first or (dash and not last):
            raise Slip(f"'{frames}' is neither a number of frames nor a range of them")
        first, last = number(first, WORD), number(last or first, WORD)
        if not SHORTEST_UNIT <= first <= last <= LONGEST_UNIT:
            raise Slip(f"there are entries for {SHORTEST_UNIT} to {LONGEST_UNIT} frames, and none for {frames}")
        lengths = last - first + 1
        for length in range(first, last + 1):
            key = ("costs", name, length)
            if self.covered.get(key, ENTRIES + 1) <= lengths:
                raise Slip(f"line {self.lines[key]} has given the entry for {length} frames already")
            self.covered[key] = lengths
            self.mark(*key)
            self.tables[name][length - SHORTEST_UNIT] = bits

    def set_section(self, item, section, words, form):
        if section not in SECTIONS:
            raise Slip(f"there is no section '{section}'")
        counted = item == "unread" and section != "costs"
        if len(words) != (2 if counted else 1):
            raise form
        if (item, section) in self.lines:
            raise Slip(f"line {self.lines[item, section]} has given this already")
        self.lines[item, section] = self.line
        if item == "place":
            self.places[section] = number(words[0], LONGEST_MADE)
        else:
            self.unread[section] = tuple(number(word, WORD) for word in words)

    def settled(self):
        """The trailer's counts, once it is seen that what the lines give fits together."""
        for name in self.unread:
            for given in ((name,), ("place", name)):
                if given in self.lines:
                    why = f"{name} cannot be unread where line {self.lines[given]} says what or where they are"
                    raise Slip(f"line {self.lines['unread', name]}: {why}")
            self.lines[(name,)] = self.lines["unread", name]
        counts = {name: len(values) for name, values in self.lists.items()}
        counts["scores"] = self.columns if self.columns is not None else len(self.rows[0]) if self.rows else 1
        counts["candidates"] = len(self.candidates)
        counts.update({name: given[0] for name, given in self.unread.items() if name != "costs"})
        if "scores" not in self.unread:
            self.see_rows(counts)
        return counts

    def see_rows(self, counts):
        columns, rows = counts["scores"], counts["nuclei"] + counts["anchors"] if counts["scores"] else 0
        if len(self.rows) != rows:
            line = self.line_of(("scores", len(self.rows) - 1), ("anchors",), ("nuclei",))
            kinds = f"{counts['nuclei']} nuclei and {counts['anchors']} anchors, {columns} columns"
            raise Slip(f"line {line}: there have to be {rows} score lines ({kinds}), and there are {len(self.rows)}")
        for r, row in enumerate(self.rows):
            if len(row) != columns:
                line, asker = self.lines["scores", r], self.line_of(("scores", "columns"), ("scores", 0))
                raise Slip(f"line {line}: row {r} has {len(row)} scores, and by line {asker} there are {columns} columns")

    def contents(self, limits):
        """The bytes of each section that is not unread."""
        sections = {name: struct.pack(f"<{len(self.lists[name])}I", *self.lists[name]) for name in LISTS}
        sections["mask"] = bytes(self.lists["mask"])
        sections["scores"] = b"".join(struct.pack(f"<{len(row)}I", *row) for row in self.rows)
        entries = [
            self.told(self.lines["candidates", i], candidate_bytes, *candidate, limits["units"])
            for i, candidate in enumerate(self.candidates)
        ]
        sections["candidates"] = b"".join(entries)
        tables = [bits for name in TABLES for bits in self.tables[name]]
        sections["costs"] = COSTS.pack(*self.figures.values(), *self.speech, *tables)
        return {name: sections[name] for name in SECTIONS if name not in self.unread}

    def record(self):
        """The record: each section at its place or else behind the one before it, and the trailer."""
        limits = EDITIONS.get(self.edition, EDITIONS[1])
        contents, starts, at = self.contents(limits), {}, 0
        for name, content in contents.items():
            starts[name] = self.places.get(name, at)
            at = starts[name] + len(content)
        parts = [(starts[name], content, self.line_of(("place", name), (name,)), name) for name, content in contents.items()]
        parts += [(at, content, line, f"the bytes of line {line}") for at, content, line in self.loose]
        before = max(start + len(content) for start, content, _, _ in parts) if parts else 0
        if before + TRAILER > LONGEST_MADE:
            raise Slip(f"line {self.line}: a record of more than {LONGEST_MADE} bytes is not made")
        pointers = {name: before - start for name, start in starts.items()}
        lengths = lengths_of(limits, self.counts)
        for name, given in self.unread.items():
            pointers[name] = given[-1]
            if lengths[name] <= given[-1] <= before:
                why = f"{name} cannot be unread: {lengths[name]} bytes stand where the pointer leads to"
                raise Slip(f"line {self.lines['unread', name]}: {why}")
        words = [self.edition, *(w for name in COUNTED for w in (self.counts[name], pointers[name])), pointers["costs"]]
        return painted(parts, before) + struct.pack("<16I", *words)


def candidate_bytes(ident, units, columns, room):
    if units is None and len(columns) > room:
        raise Slip(f"a candidate has room for {room} columns, and this one has {len(columns)}")
    if units is not None and len(columns) != room:
        raise Slip(f"behind the number of units stand all {room} column bytes, and here are {len(columns)}")
    return struct.pack(f"<II{room}s", ident, len(columns) if units is None else units, bytes(columns))


def painted(parts, before):
    """The parts, each with its start, in one run of bytes; those that share a byte have to agree on it. What none has is 0."""
    data, owners = bytearray(before), bytearray(before)
    for start, content, line, name in parts:
        end = start + len(content)
        if any(owners[start:end]):
            for at in range(start, end):
                byte = content[at - start]
                if owners[at] and data[at] != byte:
                    raise Slip(f"line {line}: {name} would make byte {at} of the record {byte}, and it is {data[at]} already")
        data[start:end] = content
        owners[start:end] = b"\1" * len(content)
    return bytes(data)


def make(text, refused=False):
    """The record that the text describes; one that the decoder refuses only where that is asked for."""
    described = Text(text)
    record = described.record()
    found = None if refused else check(record)
    if found:
        line = described.line_of(found.key, found.key[:1])
        refusal = f"the decoder refuses that by {found.number}, {WORDS[found.number]}"
        raise Slip(f"line {line}: {found.sentence()}; {refusal} (make --refused makes it)")
    return record


# ---- from a record to text


def show(data):
    """Text that makes the record again."""
    if not TRAILER <= len(data) <= LONGEST_MADE:
        raise Slip(f"a record of {len(data)} bytes cannot be shown: it has to have {TRAILER}, for its trailer, to {LONGEST_MADE}")
    record = Record(data)
    lines = [] if record.edition == 1 else [f"edition {record.edition}"]
    for name in SECTIONS:
        lines += section_lines(record, name) if record.reaches(name) else [unread_line(record, name)]
    return "\n".join(lines + place_lines(record)) + "\n"


def section_lines(record, name):
    match name:
        case "mask":
            return [" ".join([name, *runs(record.section(name))])]
        case "scores":
            rows = [runs(row, lambda bits: figure_text(bits, 4)) for row in record.rows()]
            return [f"columns {record.counts[name]}", *(" ".join(["score", *row]) for row in rows)]
        case "candidates":
            return candidate_lines(record)
        case "costs":
            return cost_lines(record)
        case _:
            return [" ".join([name, *map(str, record.frames(name))])]


def unread_line(record, name):
    count = [] if name == "costs" else [record.counts[name]]
    return " ".join(map(str, ["unread", name, *count, record.pointers[name]]))


def candidate_lines(record):
    lines = []
    for ident, units, columns in record.candidates():
        words = ["candidate", str(ident)]
        if units > len(columns) or any(columns[units:]):
            words += ["units", str(units), *runs(columns)]
        else:
            words += map(str, columns[:units])
        lines.append(" ".join(words))
    return lines


def cost_lines(record):
    figures, speech, tables = record.costs()
    lines = [f"{name} {figure_text(figures[name], FIGURES[name][0])}" for name in FIGURES]
    lines.append("speech none" if speech == NO_SPEECH else "speech {} {}".format(*speech))
    for name in TABLES:
        for bits, same in groupby(range(ENTRIES), tables[name].__getitem__):
            frames = [str(SHORTEST_UNIT + i) for i in same]
            if bits:
                lines.append(f"{name} {'-'.join(frames[:1] + frames[1:][-1:])} {figure_text(bits, 8)}")
    return lines


def place_lines(record):
    """Where sections stand that do not stand behind the one before, and the bytes that none of them has."""
    lines, at, owned = [], 0, bytearray(record.before)
    for name in filter(record.reaches, SECTIONS):
        start, length = record.start(name), record.lengths[name]
        if start != at:
            lines.append(f"place {name} {start}")
        at = start + length
        owned[start:at] = b"\1" * length
    for gap in re.finditer(rb"\0+", owned):
        content = record.data[gap.start() : gap.end()]
        if any(content) or gap.end() == record.before:
            lines.append(" ".join(["bytes", str(gap.start()), *runs(content)]))
    return lines


# ---- from result words to text


def entries(data):
    size = HEAD_WORDS + UNIT_WORDS * EDITIONS[1]["units"]
    if len(data) % (4 * size):
        raise Slip(f"{len(data)} bytes are not entries of {size} words")
    lines = []
    for number, entry in enumerate(struct.iter_unpack(f"<{size}I", data)):
        try:
            lines += entry_lines(entry)
        except Slip as slip:
            raise Slip(f"entry {number}: {slip}") from None
    return "".join(f"{line}\n" for line in lines)


def entry_lines(entry):
    ident, score, kind, count, low, high = entry[:HEAD_WORDS]
    bits, units = low | high << 32, list(zip(*[iter(entry[HEAD_WORDS:])] * UNIT_WORDS))
    if kind >= len(PASSES):
        raise Slip(f"there is no pass {kind}")
    if not 1 <= count <= len(units):
        raise Slip(f"it has {count} units, and has to have 1 to {len(units)}")
    if any(map(any, units[count:])):
        raise Slip("the words past its units are not all 0")
    if not math.isfinite(value_of(bits, 8)) or score != score_of(bits):
        raise Slip(f"the score {figure_text(score, 4)} is not that of the sum {figure_text(bits, 8)}")
    yield f"candidate {ident} {PASSES[kind]}"
    yield f"score {figure_text(score, 4)}"
    yield f"sum {figure_text(bits, 8)}"
    for start, end, row in units[:count]:
        yield f"unit {start} {end} {'-' if row == NO_ROW else row}"


def score_of(bits):
    """The bits of the score, an f32, by those of the sum: within the limits, then to the nearest."""
    return bits_of(min(max(value_of(bits, 8), -SCORE_LIMIT), SCORE_LIMIT), 4)


# ---- the program


def main(words):
    try:
        match words:
            case ["make"] | ["make", "--refused"]:
                text = sys.stdin.buffer.read().decode("utf-8-sig", "backslashreplace")
                sys.stdout.buffer.write(make(text, refused=len(words) == 2))
            case ["show"]:
                sys.stdout.write(show(sys.stdin.buffer.read()))
            case ["check"]:
                found = check(sys.stdin.buffer.read())
                print(f"refused {found.number} {WORDS[found.number]}: {found.sentence()}" if found else "accepted")
                return 1 if found else 0
            case ["entries"]:
                sys.stdout.write(entries(sys.stdin.buffer.read()))
            case _:
                print(__doc__, end="", file=sys.stderr)
                return 2
    except Slip as slip:
        print(f"phrase.py: {slip}", file=sys.stderr)
        return 1
    return 0


if __name__ == "__main__":
    sys.exit(main(sys.argv[1:]))
