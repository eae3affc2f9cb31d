"""The outline of a report: its levels under their parents with what belongs to them, and the lines that python3 -m
stormhlaw outline prints."""

import copy
import os
import pickle
import subprocess
import sys
import unittest

from stormhlaw import (
    REPLY,
    Code,
    OutlineLevel,
    Refused,
    Report,
    Segments,
    Separators,
    WalkRefused,
    _outlines,
    read,
    rewrite,
)
from tests.reports import (
    ATTACHED,
    HERE,
    REPLY_RECORDS,
    REPLY_SEGMENTS,
    SEGMENTS,
    STRAY,
    W1,
    WITH_BIN,
    joined,
    with_items,
    with_segment,
)
from tests.test_buffers import KINDS
from tests.test_program import (
    LISTING,
    LOST,
    NO_ROOM,
    REFUSED_2,
    REFUSED_3,
    REFUSED_AT_4,
    TOO_LONG,
    TRANSACTION,
    Files,
    run,
    shell,
)

EXAMPLES = HERE.parent.parent / "examples"
REPORT = joined(W1)
NEW = Separators(b"|", b"^", b"'")

# Of each level of STRAY: number, parent, depth, code, HL01, segment of the HL, its start, how many segments.
STRAY_OUTLINE = [
    (1, 0, 1, Code.REPORT, b"A", 3, 32, 1), (3, 1, 2, Code.ITEM, b"1", 5, 54, 1),
    (6, 3, 3, Code.COMPONENT, b"4", 9, 93, 1), (7, 6, 4, Code.PRODUCT_CHARACTERISTIC, b"5", 10, 104, 5),
    (9, 3, 3, Code.SERIAL_NUMBER, b"7", 16, 154, 1), (5, 1, 2, Code.ITEM, b"3", 8, 82, 1),
    (2, 0, 1, Code.REPORT, b"B", 4, 43, 1), (4, 2, 2, Code.ITEM, b"2", 6, 65, 2),
    (8, 0, 1, Code.ITEM, b"6", 15, 144, 1),
]  # fmt: skip
STRAY_LINES = """\
report RP A segment 3 byte 32 segments 1
  item I 1 segment 5 byte 54 segments 1
    component F 4 segment 9 byte 93 segments 1
      product characteristic PC 5 segment 10 byte 104 segments 5
        NCD segment 11 byte 116: NCD*1
        NCA segment 12 byte 122: NCA**R1
        NCA segment 13 byte 130: NCA**R2
        NCD segment 14 byte 138: NCD*2
    serial number SN 7 segment 16 byte 154 segments 1
  item I 3 segment 8 byte 82 segments 1
report RP B segment 4 byte 43 segments 1
  item I 2 segment 6 byte 65 segments 2
    NCD segment 7 byte 76: NCD*1
item I 6 segment 15 byte 144 segments 1
"""
OUTLINE = """\
report RP 1 segment 3 byte 32 segments 1
  item I 2 segment 4 byte 43 segments 3
    NCD segment 5 byte 54: NCD*1
    NCA segment 6 byte 60: NCA**R1
"""
MARKED_AT_4 = f"{REFUSED_AT_4}HL*2*1*F*0\n     ^\n"


class Outlines(unittest.TestCase):
    def test_the_worked_report(self):
        wanted = [
            OutlineLevel(1, 0, 1, Code.REPORT, b"1", 3, 32, SEGMENTS[2:3]),
            OutlineLevel(2, 1, 2, Code.ITEM, b"2", 4, 43, SEGMENTS[3:6]),
        ]
        found = list(read(REPORT).outline(REPORT))
        self.assertEqual(found, wanted)
        self.assertEqual([type(level.segments) for level in found], [Segments, Segments])
        self.assertEqual([type(level.name) for level in found], [bytes, bytes])

    def test_children_behind_other_branches(self):
        data = joined(STRAY)
        report = read(data)
        found = list(report.outline(data))
        self.assertEqual([(*level[:7], len(level.segments)) for level in found], STRAY_OUTLINE)
        for level in found:
            own = [record for record in report if record.level == level.number]
            self.assertEqual(level.segments, own)
            for number, record in enumerate(level.segments, level.segment):
                self.assertEqual(record.segment(data).data.decode(), STRAY[number - 1])

    def test_a_reply(self):
        data = joined(REPLY_SEGMENTS)
        wanted = [
            OutlineLevel(1, 0, 1, Code.REPORT, b"1", 3, 32, REPLY_RECORDS[2:3]),
            OutlineLevel(2, 0, 1, Code.RESPONSE, b"2", 4, 41, REPLY_RECORDS[3:4]),
            OutlineLevel(3, 0, 1, Code.ITEM, b"3", 5, 50, REPLY_RECORDS[4:7]),
        ]
        self.assertEqual(list(read(data, how=REPLY).outline(data)), wanted)

    def test_names_are_texts(self):
        data = REPORT.replace(b"HL*1**", b"HL*A  B**").replace(b"HL*2*1*", b"HL*007*A  B*")
        self.assertEqual([level.name for level in read(data).outline(data)], [b"A  B", b"007"])

    def test_other_separators(self):
        data = rewrite(joined(STRAY), NEW)[1]
        found = list(read(data, NEW).outline(data, NEW))
        self.assertEqual([(*level[:7], len(level.segments)) for level in found], STRAY_OUTLINE)

    def test_an_attachment(self):
        *_, item = read(WITH_BIN).outline(WITH_BIN)
        self.assertEqual((item.number, item.segment, len(item.segments)), (2, 4, 5))
        self.assertEqual(item.segments[3].segment(WITH_BIN).element(2), ATTACHED)

    def test_it_is_an_iterator(self):
        outline = read(REPORT).outline(REPORT)
        self.assertEqual((next(outline).number, next(outline).number, next(outline, None)), (1, 2, None))

    def test_every_kind_of_bytes(self):
        padded = REPORT.ljust(96, b"~")
        wanted = list(read(REPORT).outline(REPORT))
        for kind, make in KINDS.items():
            with self.subTest(kind):
                self.assertEqual(list(read(REPORT).outline(make(padded))), wanted)

    def test_data_that_change_afterwards(self):
        data = bytearray(REPORT)
        outline = read(data).outline(data)
        data[:] = bytes(len(data))
        self.assertEqual([level.name for level in outline], [b"1", b"2"])
        data += b"more"

    def test_arguments_are_looked_at_first(self):
        report = read(REPORT)
        for data, separators, message in (
            (REPORT[:76], Separators(), "data: 77 bytes or more wanted, not 76"),
            (b"", Separators(), "data: 77 bytes or more wanted, not 0"),
            ("", Separators(), "data: bytes, bytearray or memoryview wanted, not str"),
            (REPORT, "*", "separators: Separators wanted, not str"),
        ):
            with self.subTest(message), self.assertRaises((TypeError, ValueError)) as caught:
                report.outline(data, separators)
            self.assertEqual(str(caught.exception), message)
        self.assertEqual(len(list(report.outline(REPORT[:77]))), 2)

    def test_levels_that_are_unfit(self):
        report = read(joined(STRAY))
        with self.assertRaises(WalkRefused) as caught:
            Report(report.segments, report.levels[::-1], report.bytes).outline(joined(STRAY))
        self.assertEqual(caught.exception.level, 1)

    def test_levels_travel(self):
        for level in read(REPORT).outline(REPORT):
            for other in (pickle.loads(pickle.dumps(level)), copy.copy(level), copy.deepcopy(level)):
                self.assertEqual(other, level)
                self.assertIs(type(other), OutlineLevel)


def lines(data, **how):
    """What the program would print of a report, read so."""
    try:
        report = read(data, **how)
    except Refused as refused:
        return "".join(_outlines.refused(refused.refusal, data))
    return "".join(_outlines.accepted(report, data))


def example(name, **how):
    """The same, of one of the examples."""
    return lines((EXAMPLES / name).read_bytes(), **how)


class Lines(unittest.TestCase):
    def test_reports(self):
        self.assertEqual(lines(REPORT), OUTLINE)
        self.assertEqual(lines(joined(STRAY)), STRAY_LINES)

    def test_the_examples(self):
        self.assertEqual(example("accepted.edi"), OUTLINE)
        self.assertEqual(example("refused.edi"), MARKED_AT_4)
        wanted = """\
report RP 1 segment 3 byte 36 segments 1
  item I 2 segment 4 byte 49 segments 3
    NCD segment 5 byte 62: NCD*1
    NCA segment 6 byte 70: NCA**R1
"""
        self.assertEqual(example("lines.edi"), wanted)
        wanted = """\
report RP 1 segment 3 byte 32 segments 1
  item I 2 segment 4 byte 43 segments 5
    NCD segment 5 byte 54: NCD*1
    NCA segment 8 byte 96: NCA**R1
"""
        self.assertEqual(example("attachment.edi"), wanted)
        wanted = """\
report RP 1 segment 5 byte 69 segments 1
item I 2 segment 6 byte 78 segments 7
response RB 3 segment 13 byte 164 segments 6
  NCD segment 14 byte 173: NCD*1
  NCA segment 17 byte 215: NCA**R1
"""
        self.assertEqual(example("reply.edi", how=REPLY), wanted)
        self.assertEqual(example("reply.edi"), "refused 14 segment 13 byte 164 element 3\nHL*3**RB\n      ^^\n")
        wanted = """\
refused 4 segment 1 byte 0 element 0
ISA*00*          *00*          *ZZ*A              *ZZ*B              *240301*1200*U*00400*0000000...
^^^
"""
        self.assertEqual(example("interchange.edi"), wanted)

    def test_a_long_nonconformance(self):
        head = "    NCD segment 5 byte 54: "
        for length in (1, 73 - 6, 74 - 6):
            ncd = "NCD***" + length * "A"
            shown = ncd if len(ncd) <= 73 else ncd[:70] + "..."
            wanted = OUTLINE.replace(f"{head}NCD*1", head + shown).replace("byte 60", f"byte {55 + len(ncd)}")
            self.assertEqual(lines(with_segment(5, ncd)), wanted)
            self.assertLessEqual(max(map(len, wanted.splitlines())), 100)


class Program(Files):
    def setUp(self):
        super().setUp()
        self.good, self.bad = self.file("good", REPORT), self.file("bad", with_segment(4, "HL*2*1*F*0"))

    def test_standard_input(self):
        self.gives(run("outline", stdin=REPORT), 0, OUTLINE)
        self.gives(run("outline", "-", stdin=REPORT), 0, OUTLINE)
        self.gives(run("outline", "--", stdin=joined(STRAY)), 0, STRAY_LINES)
        self.gives(run("outline", stdin=with_segment(4, "HL*2*1*F*0")), 1, MARKED_AT_4)
        self.gives(run("outline", stdin=b""), 1, REFUSED_3)

    def test_one_file(self):
        self.gives(run("outline", self.good), 0, OUTLINE)
        self.gives(run("outline", self.bad), 1, MARKED_AT_4)

    def test_several_files(self):
        missing = str(self.folder / "missing")
        found = run("outline", self.good, "-", stdin=joined(STRAY))
        self.gives(found, 0, f"{self.good}:\n{OUTLINE}standard input:\n{STRAY_LINES}")
        both = f"{self.bad}:\n{MARKED_AT_4}{self.good}:\n{OUTLINE}"
        self.gives(run("outline", self.bad, self.good), 1, both)
        errors = f"stormhlaw: {missing}: No such file or directory\n"
        self.gives(run("outline", missing, self.bad, self.good), 2, both, errors)
        self.gives(run("outline", missing), 2, "", errors)

    def test_the_word_comes_first(self):
        self.gives(run("outline", "outline"), 2, "", "stormhlaw: outline: No such file or directory\n")
        self.gives(run("--", "outline"), 2, "", "stormhlaw: outline: No such file or directory\n")
        errors = "stormhlaw: outline: No such file or directory\n"
        self.gives(run(self.good, "outline"), 2, f"{self.good}: {LISTING}", errors)
        self.gives(run("Outline"), 2, "", "stormhlaw: Outline: No such file or directory\n")

    def test_a_file_of_that_name(self):
        self.file("outline", REPORT)

        def there(*words):
            command, environment = [sys.executable, "-m", "stormhlaw", *words], {**os.environ, "PYTHONPATH": str(HERE)}
            done = subprocess.run(command, cwd=self.folder, env=environment, capture_output=True)
            return done.returncode, done.stdout, done.stderr

        self.gives(there("./outline"), 0, LISTING)
        self.gives(there("--", "outline"), 0, LISTING)
        self.gives(there("outline", "outline"), 0, OUTLINE)
        self.gives(there("outline", "./outline"), 0, OUTLINE)

    def test_options(self):
        self.assertEqual(run("outline", "--version"), run("--version"))
        self.assertEqual(run("outline", self.good, "--help"), run("--help"))
        self.assertIn(b"\n       stormhlaw outline [FILE..]\n", run("--help")[1])
        self.gives(run("outline", "-x"), 2, "", "stormhlaw: no such option: -x; try --help\n")
        self.gives(run("outline", "--", "-x"), 2, "", "stormhlaw: -x: No such file or directory\n")

    def test_names_that_are_no_text(self):
        name = str(self.folder).encode() + b"/\xff\n"
        with open(name, "wb") as file:
            file.write(REPORT)
        self.assertEqual(run("outline", name, name), (0, 2 * (name + b":\n" + OUTLINE.encode()), b""))

    def test_hints(self):
        def hint(text):
            return f"stormhlaw: standard input: {text}\n"

        behind = hint("bytes behind its SE that were not looked at: 4")
        self.gives(run("outline", stdin=REPORT + b"\r\nGE"), 0, OUTLINE, behind)
        refused, interchange = "refused 4 segment 1 byte 0 element 0", hint(f"a whole interchange (ISA): {TRANSACTION}")
        self.gives(run("outline", stdin=b"ISA*00*~"), 1, f"{refused}\nISA*00*\n^^^\n", interchange)
        self.gives(run("outline", stdin=REPORT.ljust(65_536, b"\n")), 0, OUTLINE)
        self.gives(run("outline", stdin=REPORT.ljust(65_537, b"\n")), 1, REFUSED_2, hint(TOO_LONG))
        status, output, errors = run("outline", stdin=with_items(200))
        self.assertEqual((status, errors.decode()), (1, hint(NO_ROOM)))
        self.assertEqual(output.splitlines()[1:], [b"HL*200*R*I*0", b"^^"])

    def test_output_that_cannot_be_written(self):
        self.gives(shell(">/dev/full", "outline", self.good), 2, "", LOST)
        self.gives(shell(">&-", "outline", self.good), 2, "", LOST)


if __name__ == "__main__":
    unittest.main()
