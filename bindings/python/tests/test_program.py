"""python3 -m stormhlaw: what it writes, and its status."""

import os
import subprocess
import sys
import tempfile
import unittest
from pathlib import Path

from tests.reports import HERE, W1, joined, with_items, with_segment

REPORT = joined(W1)
# W1 with CR LF behind each segment.
LINES = HERE.parent.parent / "examples" / "lines.edi"
# As the README says: the counts, then a line for each segment of W1, then one for each level.
LISTING = """\
842 segments 7 levels 2 bytes 78
1 0 11 1 0
2 12 19 2 0
3 32 10 18 1
4 43 10 18 2
5 54 5 46 2
6 60 7 64 2
7 68 9 79 0
level 1 3 0 1 RP
level 2 4 1 2 I
"""
REFUSED_AT_4 = "refused 14 segment 4 byte 43 element 2\n"
TRANSACTION = "the gate reads one transaction, from its ST to the end of its SE"
SEPARATORS = (
    "its separators are not the standard * : ~ that this program reads; a caller of the library can name others"
)
TOO_LONG = "longer than the 65,536 bytes that this program reads; the library reads 1,048,576"
NO_ROOM = (
    "more than the 1,000 segments or 200 levels that this program has room for; "
    "a caller of the library can lend more"
)
REFUSED_2 = "refused 2 segment 0 byte 0 element 0\n"
REFUSED_3 = "refused 3 segment 1 byte 0 element 0\n"
LOST = "stormhlaw: standard output: cannot be written\n"


def run(*words, stdin=b"", **options):
    """The status, standard output and standard error of the program."""
    command = [sys.executable, "-m", "stormhlaw", *words]
    options = {"stdout": subprocess.PIPE, "stderr": subprocess.PIPE, "input": stdin, **options}
    done = subprocess.run(command, cwd=HERE, **options)
    return done.returncode, done.stdout, done.stderr


def shell(redirections, *words):
    """The same, with redirections as a shell writes them."""
    command = ["sh", "-c", f'exec "$0" -m stormhlaw "$@" {redirections}', sys.executable, *words]
    done = subprocess.run(command, cwd=HERE, stdin=subprocess.DEVNULL, capture_output=True)
    return done.returncode, done.stdout, done.stderr


class Files(unittest.TestCase):
    """Tests of the program on files in a folder of their own."""

    def setUp(self):
        folder = tempfile.TemporaryDirectory()
        self.addCleanup(folder.cleanup)
        self.folder = Path(folder.name)

    def file(self, name, data):
        (self.folder / name).write_bytes(data)
        return str(self.folder / name)

    def gives(self, found, status, output="", errors=""):
        self.assertEqual(found, (status, output.encode(), errors.encode()))


class Program(Files):
    def test_standard_input(self):
        self.gives(run(stdin=REPORT), 0, LISTING)
        self.gives(run("-", stdin=REPORT), 0, LISTING)
        self.gives(run("--", stdin=REPORT), 0, LISTING)
        self.gives(run(stdin=with_segment(4, "HL*2*1*F*0")), 1, REFUSED_AT_4)

    def test_line_ends(self):
        lines = REPORT.replace(b"~", b"~\r\n")
        self.assertEqual(LINES.read_bytes(), lines)
        for status, output, errors in (run(str(LINES)), run(stdin=lines)):
            self.assertEqual((status, errors), (0, b""))
            begins = "842 segments 7 levels 2 bytes 90\n1 0 11 1 0\n2 14 19 2 0\n"
            self.assertEqual(output.decode()[: len(begins)], begins)
        self.gives(run(stdin=lines.replace(b"\n", b"\n\n")), 1, "refused 5 segment 2 byte 14 element 0\n")

    def test_one_file(self):
        self.gives(run(self.file("report", REPORT)), 0, LISTING)
        self.gives(run(self.file("report", with_segment(4, "HL*2*1*F*0"))), 1, REFUSED_AT_4)

    def test_several_files(self):
        good, bad = self.file("good", REPORT), self.file("bad", with_segment(4, "HL*2*1*F*0"))
        missing = str(self.folder / "missing")
        self.gives(run(good, "-", stdin=REPORT), 0, f"{good}: {LISTING}standard input: {LISTING}")
        self.gives(run(bad, good), 1, f"{bad}: {REFUSED_AT_4}{good}: {LISTING}")
        errors = f"stormhlaw: {missing}: No such file or directory\n"
        self.gives(run(missing, bad, good), 2, f"{bad}: {REFUSED_AT_4}{good}: {LISTING}", errors)

    def test_files_that_cannot_be_read(self):
        self.gives(run(str(self.folder)), 2, "", f"stormhlaw: {self.folder}: Is a directory\n")
        self.gives(run(""), 2, "", "stormhlaw: : No such file or directory\n")
        self.gives(shell("<&-"), 2, "", "stormhlaw: standard input: Bad file descriptor\n")

    def test_options(self):
        report = self.file("report", REPORT)
        self.gives(run("--version", report), 0, "stormhlaw 0.7.0\n")
        for word in ("-x", "--helpme", "---"):
            self.gives(run(report, word), 2, "", f"stormhlaw: no such option: {word}; try --help\n")
        self.assertEqual(run("-h"), run("--help"))
        status, usage, errors = run("-h")
        self.assertEqual((status, usage.split(b"\n")[0], errors), (0, b"Usage: stormhlaw [FILE..]", b""))

    def test_names_after_the_options(self):
        self.gives(run("--", "-x"), 2, "", "stormhlaw: -x: No such file or directory\n")

    def test_names_that_are_no_text(self):
        name = os.fsencode(self.file("a", REPORT)) + b"\xff\n"
        os.rename(name[:-2], name)
        self.assertEqual(run(name), (0, LISTING.encode(), b""))
        self.assertEqual(run(name, name), (0, 2 * (name + b": " + LISTING.encode()), b""))
        self.assertEqual(run(name + b"?"), (2, b"", b"stormhlaw: " + name + b"?: No such file or directory\n"))

    def test_output_that_cannot_be_written(self):
        good = self.file("good", REPORT)
        self.gives(shell(">/dev/full", good), 2, "", LOST)
        self.gives(shell(">&-", good), 2, "", LOST)
        self.gives(shell(">/dev/full", "--help"), 2, "", LOST)
        self.gives(shell("2>&-", good, "-"), 1, f"{good}: {LISTING}standard input: {REFUSED_3}")


class Hints(unittest.TestCase):
    def hint(self, data, text, answer=None):
        """What is said of the report on standard error, and on standard output where that is given too."""
        status, output, errors = run(stdin=data)
        self.assertEqual(errors.decode(), f"stormhlaw: standard input: {text}\n" if text else "")
        self.assertEqual(status, 0 if output.startswith(b"842") else 1)
        if answer:
            self.assertEqual(output.decode(), answer)

    def test_beginnings(self):
        self.hint(b"ISA*00*", f"a whole interchange (ISA): {TRANSACTION}")
        self.hint(b"GS*NR*", f"a functional group (GS): {TRANSACTION}")
        for mark in (b"\xef\xbb\xbf", b"\xff\xfe", b"\xfe\xff"):
            self.hint(mark + REPORT, "a byte order mark comes first: a report begins with ST")
        self.hint(REPORT[1:], None)

    def test_separators(self):
        others = b"ST|842", b"ST\n", b"ST*842|", b"ST*|", b"ST*842*1|", b"ST*842*0001\n", b"ST:842:0001'", b"ST*8 4-2.|~"
        for start in others:
            self.hint(start, SEPARATORS)
        late = REPORT.replace(b"NR7", b"N|7").replace(b"HL*2*1*I", b"HL*2*1*F").replace(b"0001~B", b"0/01~B")
        standard = b"ST", b"ST*", b"ST*842", b"ST*842~", b"ST*842*1", b"ST*842*1~|", b"ST**:", b"ST\x00\x7f\xff~", late
        for start in standard:
            self.hint(start, None)

    def test_sizes(self):
        self.hint(REPORT.ljust(65_536, b"\n"), None, LISTING)
        self.hint(REPORT.ljust(65_537, b"\n"), TOO_LONG, REFUSED_2)
        self.hint(b"ISA".ljust(65_537), f"a whole interchange (ISA): {TRANSACTION}", REFUSED_2)

    def test_room(self):
        def with_segments(count):
            return joined(W1[:5] + (count - 6) * ["RC*4"] + [f"SE*{count}*0001"])

        for fits, does_not in ((with_segments(1000), with_segments(1001)), (with_items(199), with_items(200))):
            self.assertEqual(run(stdin=fits)[::2], (0, b""))
            self.hint(does_not, NO_ROOM)

    def test_bytes_behind(self):
        self.hint(REPORT + b"\r\n\n", None, LISTING)
        self.hint(REPORT + b"\r\nGE", "bytes behind its SE that were not looked at: 4", LISTING)
        self.hint(REPORT + b" ", "bytes behind its SE that were not looked at: 1", LISTING)


if __name__ == "__main__":
    unittest.main()
