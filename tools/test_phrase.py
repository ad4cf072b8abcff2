#!/usr/bin/env python3
"""Tests of phrase.py: what `make` refuses and with which line, that `show` gives text for the same bytes, what `check` says, and what
`entries` shows of result words."""
import random
import re
import struct
import subprocess
import sys
import unittest
from pathlib import Path

sys.dont_write_bytecode = True
from phrase import COSTS, FORMS, LISTS, TRAILER, Slip, check, entries, figure, figure_text, make, show

TOP = Path(__file__).resolve().parent.parent
SAMPLE = (TOP / "crates/listing/stdin").read_bytes()
PLAIN = """mask 1*20
nuclei 7
boundaries 4 14
score 3
candidate 9 0 0
candidate 3 0
per-frame 0.5
insertion -2
unvoiced -4
speech 4 14
duration 10 -0.25
"""
TWO_STAGES = """mask 1*30 0 1*20
nuclei 7 20
boundaries 4 14 30
anchors 9
added-boundaries 4 12 18
score 3 -1
score 0*2
score 1.5 1e-40
candidate 9 0 1
candidate 3 units 1 1 0*14 255   # an unused column byte that is not 0
duration 6-80 -1
duration 10-12 -0.5
duration 11 -0
added-duration 80 -1e6
"""
# the boundaries are the added ones too, the mask stands last, and some bytes belong to nothing
SHARED = TWO_STAGES.replace("added-boundaries 4 12 18", "added-boundaries 4 14 30") + """place nuclei 10
place boundaries 18
place added-boundaries 18
place scores 50
place mask 1400
bytes 3 7 7 0 9
bytes 1460 0*5
"""


def run(arguments, given):
    done = subprocess.run([sys.executable, TOP / "tools/phrase.py", *arguments], input=given, capture_output=True)
    return done.returncode, done.stdout, done.stderr.decode()


def damaged(r, record):
    for _ in range(r.randint(1, 3)):
        match r.randrange(4):
            case 0:
                record[r.randrange(len(record))] = r.choice([0, 1, 2, 127, 128, 255])
            case 1:
                del record[: r.randrange(len(record)) if r.random() < 0.2 else 2]
            case 2:
                record[:0] = r.randbytes(r.randrange(4))
            case 3 if len(record) >= TRAILER:
                before = len(record) - TRAILER
                at = before + 4 * r.randrange(16)
                near = struct.unpack_from("<I", record, at)[0] ^ 4
                struct.pack_into("<I", record, at, r.choice([0, 1, 16, 17, 64, 65, 2**32 - 1, before, near]))
    return bytes(record)


class Making(unittest.TestCase):
    # items that cannot be meant behind the lines of PLAIN, and what is said of each
    ITEMS = [
        ("duration 5 -7", "6 to 80 frames, and none for 5"),
        ("duration 81 -7", "6 to 80 frames, and none for 81"),
        ("duration -1 -7", "'-1' is neither a number of frames nor a range of them"),
        ("duration 6- -7", "'6-' is neither a number of frames nor a range of them"),
        ("duration 80-6 -7", "none for 80-6"),
        ("duration 6-81 -7", "none for 6-81"),
        ("duration 12", "the form is: duration FRAMES"),
        ("added-duration 12 -1 -1", "the form is: added-duration"),
        ("duration 10 -1", "line 11 has given the entry for 10 frames already"),
        ("duration 6-80 -1", "line 11 has given the entry for 10 frames already"),
        ("speech 8", "the form is: speech START END, or speech none"),
        ("speech 4 14", "line 10 has given this already"),
        ("per-frame 1", "line 7 has given this already"),
        ("candidate 4 256", "256 is above 255"),
        ("candidate 4 0*17", "room for 16 columns, and this one has 17"),
        ("candidate 4 units 17 0*17", "all 16 column bytes, and here are 17"),
        ("candidate 4 units", "the form is: candidate"),
        ("candidate", "the form is: candidate"),
        ("candidate -4 0", "'-4' is not a whole number"),
        ("nuclei -1", "'-1' is not a whole number"),
        ("nuclei 4294967296", "is above 4294967295"),
        ("nuclei " + "9" * 5000, "is above 4294967295"),
        ("nuclei 1_0", "'1_0' is not a whole number"),
        ("mask 256", "256 is above 255"),
        ("mask 1*", "'' is not a whole number"),
        ("mask 1*999999999999", "is above"),
        ("score", "the form is: score"),
        ("score 1e39", "1e39 is larger than an f32 can be"),
        ("score 0x3f80", "'0x3f80' is not a figure"),
        ("score 1_0", "'1_0' is not a figure"),
        ("added-duration 9 1e400", "1e400 is larger than an f64 can be"),
        ("edition", "the form is: edition NUMBER"),
        ("nucleus 7", "there is no item 'nucleus'"),
        ("place middle 7", "there is no section 'middle'"),
        ("place mask", "the form is: place"),
        ("unread mask 7", "the form is: unread"),
        ("bytes 7", "the form is: bytes"),
        ("nuclei \\xff", "is not a whole number"),
    ]

    def slip(self, text, line, sentence, refused=True):
        with self.assertRaises(Slip) as caught:
            make(text, refused)
        self.assertRegex(str(caught.exception), rf"^line {line}: .*{sentence}")
        self.assertNotIn("\n", str(caught.exception))

    def test_sample(self):
        self.assertEqual(make(PLAIN), SAMPLE)
        page = (TOP / "docs/FORMAT.md").read_text()
        block = re.search(r"^    mask 1\*20.*?\n\n", page, re.M | re.S)[0]
        self.assertEqual(make(block), SAMPLE)
        rows = re.findall(r"^\| (`.*?) \|", page, re.M)
        items = {item.split()[0] for row in rows for item in re.findall(r"`([^`]+)`", row)}
        self.assertEqual(items, {*FORMS, "mask", *LISTS})

    def test_lines_that_cannot_be_meant(self):
        for item, sentence in self.ITEMS:
            with self.subTest(item):
                self.slip(PLAIN + item + "\n", 12, re.escape(sentence))

    def test_any_words(self):
        """Whatever the words, there is a record or a sentence with a line."""
        r = random.Random(5)
        items = [*FORMS, "mask", *LISTS]
        words = "0 1 2 7 9 -1 6-80 10-12 80 81 255 256 4095 4096 4294967295 1*20 0*3 2*2 -0.5 1e3 1e9 inf nan 0x7fc00001 x none units".split()
        words += ["mask", "nuclei", "scores", "candidates", "costs"]
        for _ in range(3000):
            lines = [" ".join([r.choice(items), *r.choices(words, k=r.randrange(4))]) for _ in range(r.randint(1, 6))]
            try:
                make("\n".join(lines), refused=r.random() < 0.8)
            except Slip as slip:
                self.assertRegex(str(slip), r"^line [1-6]: ")

    def test_rows_that_do_not_fit(self):
        self.slip(PLAIN.replace("score 3\n", ""), 2, "1 score lines .*, and there are 0")
        self.slip(PLAIN + "score 3\n", 12, "1 score lines .*, and there are 2")
        self.slip(PLAIN.replace("nuclei 7", "nuclei 7 8"), 4, "2 score lines .*, and there are 1")
        self.slip(TWO_STAGES.replace("score 0*2\n", ""), 7, r"3 score lines \(2 nuclei and 1 anchors, 2 columns\), and there are 2")
        self.slip(TWO_STAGES.replace("score 0*2", "score 0"), 7, "row 1 has 1 scores, and by line 6 there are 2 columns")
        self.slip(PLAIN + "columns 2", 4, "row 0 has 1 scores, and by line 12 there are 2 columns")
        self.slip(PLAIN + "columns 0", 4, "0 score lines .*, and there are 1")

    def test_sections_that_do_not_fit(self):
        self.slip(PLAIN + "place boundaries 1", 12, "boundaries would make byte 1 of the record 4, and it is 1 already")
        self.slip(PLAIN + "bytes 3 1 2", 12, "the bytes of line 12 would make byte 4 of the record 2, and it is 1 already")
        self.slip(PLAIN + "unread mask 20 5", 12, "mask cannot be unread where line 1 says")
        self.slip(PLAIN.replace("mask 1*20", "unread mask 20 20"), 1, "mask cannot be unread: 20 bytes stand where")
        self.slip(PLAIN + "place mask 131072", 12, "more than 131072 bytes is not made")

    def test_ranges_of_durations(self):
        self.assertEqual(make(PLAIN + "duration 6-9 0\nduration 11-80 0\n"), SAMPLE)
        self.assertEqual(make(PLAIN.replace("duration 10", "duration 6-80 0\nduration 10-11 -7\nduration 11 0\nduration 10")), SAMPLE)
        self.assertEqual(make(PLAIN.replace("10 -0.25", "6-80 -0.25")).count(struct.pack("<d", -0.25)), 75)

    def test_what_may_be_left_out(self):
        self.assertEqual(COSTS.size, 1228)
        least = make("candidate 0 0")
        self.assertEqual(struct.unpack("<16I", least[-TRAILER:]), (1, *[0, 1252] * 5, 1, 1252, 1, 1252, 1228))
        wanted = ["columns 1", "candidate 0 0", "per-frame 0", "insertion 0", "unvoiced 0", "speech none", ""]
        self.assertEqual(show(least).split("\n")[5:], wanted)


class Refusing(unittest.TestCase):
    """Each text makes a record that is refused, by a number, at a place and by a line of the text."""

    CASES = [
        (PLAIN.replace("mask", "bytes 1376 7*65000\nmask"), 1, "the record: 66440 bytes", 12),
        (PLAIN + "edition 2", 2, "trailer: edition 2", 12),
        (PLAIN.replace("1*20", "1*2049"), 3, "mask: 2049 frames", 1),
        (PLAIN.replace("score 3", "score 3*65"), 3, "scores: 65 columns", 4),
        ("columns 0\ncandidate 1 0", 3, "scores: 0 columns", 1),
        (PLAIN + "added-boundaries 3 9", 3, "added-boundaries: 2 added-boundaries", 12),
        (PLAIN.replace("boundaries 4 14", "unread boundaries 2 7"), 4, "boundaries: pointer 7", 3),
        (PLAIN.replace("mask 1*20", "unread mask 20 1293"), 4, "mask: pointer 1293", 1),
        (PLAIN.replace("1*20", "1*19 2"), 5, "mask, index 19: 2", 1),
        (PLAIN.replace("4 14\nscore", "4\nboundaries 4\nscore"), 5, "boundaries, index 1: 4", 4),
        (PLAIN.replace("4 14\nscore", "4 4096\nscore"), 5, "boundaries, index 1: 4096", 3),
        (PLAIN.replace("speech 4 14", "speech 14 4"), 5, "costs, speech: 14 4", 10),
        (PLAIN.replace("speech 4 14", "speech 4 4294967295"), 5, "costs, speech: 4 4294967295", 10),
        (PLAIN.replace("speech 4 14", "speech 4294967295 4"), 5, "costs, speech: 4294967295 4", 10),
        (TWO_STAGES.replace("score 1.5 1e-40", "score 1.5 -inf"), 6, "scores, row 2, column 1: -inf", 8),
        (PLAIN.replace("insertion -2", "insertion nan"), 6, "costs, insertion: nan", 8),
        (PLAIN.replace("unvoiced -4", "unvoiced 1000001"), 6, "costs, unvoiced: 1000001", 9),
        (PLAIN + "duration 6-8 1e-300", 6, "costs, duration of 6 frames: 1e-300", 12),
        (TWO_STAGES.replace("80 -1e6", "80 -1000001"), 6, "costs, added-duration of 80 frames: -1000001", 14),
        (PLAIN.replace("candidate", "# candidate"), 7, "candidates: 0", 11),
        (PLAIN + "candidate 9 0", 8, "candidates, candidate 2: id 9", 12),
        (PLAIN + "candidate 8", 9, "candidates, candidate 2: 0 units", 12),
        (PLAIN + "candidate 8 units 17 0*16", 9, "candidates, candidate 2: 17 units", 12),
        (PLAIN + "candidate 8 0 1", 10, "candidates, candidate 2, unit 1: column 1", 12),
        (PLAIN.replace("9 0 0", "9 0 1") + "candidate 3 0", 10, "candidates, candidate 0, unit 1: column 1", 5),
        (PLAIN.replace("3 0\n", "9\n"), 8, "candidates, candidate 1: id 9", 6),
    ]

    def test_behind_the_flag_only(self):
        for text, number, where, line in self.CASES:
            with self.subTest(where):
                found = check(make(text, refused=True))
                self.assertEqual((found.number, f"{found.where}: {found.value}"), (number, where))
                with self.assertRaises(Slip) as caught:
                    make(text)
                refusal = rf"the decoder refuses that by {number}, \w+ \(make --refused makes it\)"
                self.assertRegex(str(caught.exception), rf"^line {line}: {re.escape(where)}, and .*; {refusal}$")

    def test_short_records(self):
        for length in range(TRAILER):
            self.assertEqual(check(bytes(length)).number, 1)
        self.assertEqual(check(bytes(TRAILER)).number, 2)

    def test_every_limit_by_one(self):
        limits = zip((1, 3, 5, 7, 9, 11, 13), (2048, 32, 64, 64, 64, 64, 16))
        for word, most in limits:
            for count in (most, most + 1):
                record = bytearray(make(TWO_STAGES))
                struct.pack_into("<I", record, len(record) - TRAILER + 4 * word, count)
                self.assertEqual(check(bytes(record)).number == 3, count > most, word)

    def test_the_lowest_number(self):
        changes = [
            ("nuclei 7", "nuclei 7\nedition 2"),
            ("score 3", "score 3*65"),
            ("mask 1*20", "unread mask 20 19"),
            ("boundaries 4", "boundaries 4 4"),
            ("insertion -2", "insertion -2000"),
            ("candidate", "# candidate"),
        ]
        for number, _ in enumerate(changes, 2):
            text = PLAIN
            for old, new in changes[number - 2 :]:
                text = text.replace(old, new)
            self.assertEqual(check(make(text, refused=True)).number, number)

    def test_accepted(self):
        for text in (PLAIN, TWO_STAGES, SHARED, PLAIN + "added-duration 10 nan", PLAIN.replace("speech 4 14", "speech 0 4095")):
            self.assertIsNone(check(make(text)))


class Showing(unittest.TestCase):
    def again(self, record):
        text = show(record)
        self.assertEqual(make(text, refused=True), record, text)
        if check(record):
            self.assertRaises(Slip, make, text)
        else:
            self.assertEqual(make(text), record)

    def test_the_same_bytes(self):
        for text in (PLAIN, TWO_STAGES, SHARED, *(case[0] for case in Refusing.CASES)):
            self.again(make(text, refused=True))
        self.again(bytes(TRAILER))

    def test_seventeen_units(self):
        record = bytearray(SAMPLE)
        record[40] = 17
        self.assertIn("\ncandidate 9 units 17 0*16\n", show(bytes(record)))
        self.again(bytes(record))

    def test_damaged_records(self):
        r = random.Random(20261116)
        bases = [make(text) for text in (PLAIN, TWO_STAGES, SHARED)]
        seen = set()
        for i in range(600):
            record = damaged(r, bytearray(bases[i % 3]))
            found = check(record)
            seen.add(found.number if found else 0)
            if len(record) < TRAILER:
                self.assertRaises(Slip, show, record)
            else:
                self.again(record)
        self.assertLessEqual({0, 1, 2, 3, 4, 5, 7}, seen)

    def test_patterns_of_floats(self):
        r = random.Random(7)
        for width in (4, 8):
            patterns = [r.getrandbits(8 * width) for _ in range(3000)]
            patterns += [p | mask for mask in ({4: 0xFF << 23, 8: 0x7FF << 52}[width],) for p in patterns[:99]]
            largest = {4: 0x7F7FFFFF, 8: 0x7FEFFFFFFFFFFFFF}[width]
            for bits in [*patterns, 0, 1, 1 << 8 * width - 1, largest, largest - 1, largest + 1, largest + 2]:
                self.assertEqual(figure(figure_text(bits, width), width), bits)

    def test_durations_as_ranges(self):
        lines = [line for line in show(make(TWO_STAGES)).split("\n") if "duration" in line]
        wanted = ["6-9 -1", "10 -0.5", "11 -0", "12 -0.5", "13-80 -1"]
        self.assertEqual(lines, [f"duration {entry}" for entry in wanted] + ["added-duration 80 -1000000"])


class Entries(unittest.TestCase):
    NO_ROW = 2**32 - 1
    # the two entries of the sample phrase, as docs/FORMAT.md has them
    FOUND = (3, 0xC0100000, 0, 1, 0, 0xC0020000, 4, 14, 0)
    MISSED = (9, 0xC1000000, 4, 2, 0, 0xC0200000, 4, 4, NO_ROW, 4, 4, NO_ROW)

    def words(self, *given):
        return b"".join(struct.pack("<54I", *entry, *[0] * (54 - len(entry))) for entry in given)

    def head(self, score, low, high):
        return entries(self.words((1, score, 0, 1, low, high, 0, 6, 0))).split("\n")[1:3]

    def test_sample(self):
        text = "candidate 3 nuclei-strict\nscore -2.25\nsum -2.25\nunit 4 14 0\n"
        text += "candidate 9 none\nscore -8\nsum -8\nunit 4 4 -\nunit 4 4 -\n"
        self.assertEqual(entries(self.words(self.FOUND, self.MISSED)), text)
        self.assertEqual(run(["entries"], self.words(self.FOUND, self.MISSED)), (0, text.encode(), ""))
        self.assertEqual(entries(b""), "")

    def test_sums(self):
        # beyond the limit on either side, a product of f32, zeros with their sign, and a sum too small for an f32
        self.assertEqual(self.head(0x49742400, 0x20000000, 0x4136E360), ["score 1e+06", "sum 1500000.125"])
        self.assertEqual(self.head(0xC9742400, 0, 0xC13E8480), ["score -1e+06", "sum -2000000"])
        self.assertEqual(self.head(0x3E99999A, 0x40000000, 0x3FD33333), ["score 0.3", "sum 0.30000001192092896"])
        self.assertEqual(self.head(0, 0, 0), ["score 0", "sum 0"])
        self.assertEqual(self.head(0x80000000, 0, 0x80000000), ["score -0", "sum -0"])
        self.assertEqual(self.head(0x80000000, 1, 0x80000000), ["score -0", "sum -5e-324"])

    def test_no_entries(self):
        entry = self.FOUND
        for at, word, said in [
            (1, 0xC0100001, "the score -2.25.* is not that of the sum -2.25"),
            (1, 0, "the score 0 is not that of the sum -2.25"),
            (4, 0xC0020000, "the score -2.25 is not that of the sum"),
            (5, 0x7FF80000, "the score -2.25 is not that of the sum nan"),
            (5, 0xFFF00000, "the score -2.25 is not that of the sum -inf"),
            (2, 6, "there is no pass 6"),
            (3, 0, "it has 0 units"),
            (3, 17, "it has 17 units"),
        ]:
            with self.assertRaisesRegex(Slip, f"^entry 1: {said}"):
                entries(self.words(entry, (*entry[:at], word, *entry[at + 1 :])))
        with self.assertRaisesRegex(Slip, "past its units"):
            entries(self.words((*entry, 0, 0, 1)))
        with self.assertRaisesRegex(Slip, "^212 bytes are not entries of 54 words$"):
            entries(self.words(entry)[4:])
        self.assertEqual(run(["entries"], b"1")[:2], (1, b""))


class Calling(unittest.TestCase):
    def test_answers(self):
        self.assertEqual(run(["make"], PLAIN.encode()), (0, SAMPLE, ""))
        self.assertEqual(run(["check"], SAMPLE), (0, b"accepted\n", ""))
        shown = run(["show"], SAMPLE)
        self.assertEqual(run(["make"], shown[1]), (0, SAMPLE, ""))

    def test_refusals_in_one_line(self):
        status, out, errors = run(["make"], PLAIN.encode() + b"nuclei \xff\n")
        self.assertEqual((status, out, errors.count("\n")), (1, b"", 1))
        self.assertRegex(errors, "^phrase.py: line 12: ")
        status, out, errors = run(["show"], SAMPLE[-63:])
        self.assertEqual((status, out, errors.count("\n")), (1, b"", 1))
        self.assertIn("a record of 63 bytes cannot be shown", errors)
        record = make(PLAIN + "candidate 8 0 1", refused=True)
        self.assertEqual(run(["make", "--refused"], (PLAIN + "candidate 8 0 1").encode()), (0, record, ""))
        said = b"refused 10 column: candidates, candidate 2, unit 1: column 1, and it has to be below 1, the columns\n"
        self.assertEqual(run(["check"], record), (1, said, ""))
        self.assertEqual(run(["made"], b"")[:2], (2, b""))


if __name__ == "__main__":
    unittest.main(verbosity=0)
