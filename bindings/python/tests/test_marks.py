"""The mark under the element for which a report is refused, as python3 -m stormhlaw outline prints it."""

import unittest

from stormhlaw import Separators
from tests.reports import ATTACHED, BEFORE_BIN, BEHIND_BIN, W1, WITH_BIN, joined, with_segment
from tests.test_outline import lines
from tests.test_program import REFUSED_2, REFUSED_3

REPORT = joined(W1)
# 40 elements that stand before the one that is meant: they and their separators take 203 columns.
FAR = "BNR" + 40 * "*AAAA"


class Marks(unittest.TestCase):
    def marked(self, segment, text, mark, number=4, answer=None):
        """W1 with this segment is refused there, and shown so."""
        found = lines(with_segment(number, segment)).split("\n")
        self.assertEqual(found[1:], [text, mark, ""], segment)
        self.assertIn(f" segment {number} ", found[0])
        if answer:
            self.assertEqual(found[0], answer)

    def test_first_and_last_element(self):
        self.marked("HL*1*1*I*0", "HL*1*1*I*0", "   ^", 4, "refused 12 segment 4 byte 43 element 1")
        self.marked("HL*2*1*I*7", "HL*2*1*I*7", "         ^", 4, "refused 15 segment 4 byte 43 element 4")
        self.marked("SE*7*0002", "SE*7*0002", "     ^^^^", 7, "refused 16 segment 7 byte 68 element 2")
        self.marked("ST*841*0001", "ST*841*0001", "   ^^^", 1, "refused 10 segment 1 byte 0 element 1")

    def test_an_element_that_is_not_there(self):
        self.marked("HL*2", "HL*2", "    ^", 4, "refused 8 segment 4 byte 43 element 3")
        self.marked("HL**1*I*0", "HL**1*I*0", "   ^", 4, "refused 8 segment 4 byte 43 element 1")
        self.marked("HL*2*1*I*", "HL*2*1*I*", "         ^", 4, "refused 6 segment 4 byte 43 element 4")

    def test_a_tag(self):
        self.marked("XYZ*1", "XYZ*1", "^^^", 5, "refused 4 segment 5 byte 54 element 0")
        self.marked("HL", "HL", "^^", 4, "refused 6 segment 4 byte 43 element 0")
        self.marked("", "", "^", 4, "refused 4 segment 4 byte 43 element 0")
        self.marked("*1", "*1", "^", 4, "refused 4 segment 4 byte 43 element 0")

    def test_bytes_that_are_not_printable(self):
        for byte in (0, 9, 10, 13, 27, 31, 127, 128, 155, 255):
            data = REPORT.replace(b"NR7", b"N%b7" % bytes([byte]))
            wanted = "refused 5 segment 2 byte 12 element 2\nBNR*11*N.7*20240301\n       ^^^\n"
            self.assertEqual(lines(data), wanted)
        wanted = "refused 5 segment 2 byte 13 element 0\n.BNR*11*NR7*20240301\n^^^^\n"
        self.assertEqual(lines(REPORT.replace(b"~", b"~\n\n")), wanted)

    def test_no_segment(self):
        self.assertEqual(lines(REPORT, separators=Separators(b"A")), "refused 1 segment 0 byte 0 element 0\n")
        self.assertEqual(lines(bytes(1_048_577)), REFUSED_2)

    def test_no_terminator(self):
        self.assertEqual(lines(b""), REFUSED_3)
        self.assertEqual(lines(b"ST*842"), f"{REFUSED_3}ST*842\n^^\n")
        self.assertEqual(lines(REPORT[:43]), "refused 3 segment 4 byte 43 element 0\n")
        self.assertEqual(lines(REPORT[:43] + b"\r\n"), "refused 3 segment 4 byte 45 element 0\n")
        self.assertEqual(lines(REPORT[:47]), "refused 3 segment 4 byte 43 element 0\nHL*2\n^^\n")
        self.assertEqual(lines(REPORT[:43] + b"\n*"), "refused 3 segment 4 byte 44 element 0\n*\n^\n")
        long = REPORT[:43] + 200 * b"HL"
        self.assertEqual(lines(long), f"refused 3 segment 4 byte 43 element 0\n{48 * 'HL'}H...\n{97 * '^'}\n")

    def test_as_long_as_a_line(self):
        answer, hundred = "refused 10 segment 4 byte 43 element 1", "HL*" + 91 * "1" + "*1*I*0"
        self.marked(hundred, hundred, "   " + 91 * "^", 4, answer)
        self.marked("HL*" + 92 * "1" + "*1*I*0", "HL*" + 92 * "1" + "*1...", "   " + 92 * "^", 4, answer)

    def test_cut_behind(self):
        self.marked("HL*1*1*I*0" + 50 * "*A", "HL*1*1*I*0" + 43 * "*A" + "*...", "           ^")
        self.marked("HL*" + 200 * "1" + "*1*I*0", "HL*" + 94 * "1" + "...", "   " + 94 * "^")
        # The mark ends where the line is cut; one column more, and the line is cut before it too.
        bnr = "BNR" + 45 * "*A"
        self.marked(f"{bnr}*B\tB" + 9 * "*A", f"{bnr}*B.B...", 94 * " " + "^^^", 2)
        self.marked(f"{bnr}*BB\tB" + 99 * "*A", "..." + 22 * "*A" + "*BB.B" + 22 * "*A" + "*...", 48 * " " + "^^^^", 2)

    def test_cut_before(self):
        # The last 97 of 207 columns: the end of an element, 18 more of them, and the one that is meant.
        self.marked(f"{FAR}*B\tB", "...AAA" + 18 * "*AAAA" + "*B.B", 97 * " " + "^^^", 2)
        # 48 columns behind the mark are its line's last.
        self.marked(f"{FAR}*B\tB*" + 47 * "A", "..." + 9 * "*AAAA" + "*B.B*" + 47 * "A", 49 * " " + "^^^", 2)
        # One column more for the element that is missing.
        self.marked("HL*" + 200 * "1", "..." + 96 * "1", 99 * " " + "^")

    def test_cut_on_either_side(self):
        # The mark, of three columns, is in the middle of 94.
        self.marked(f"{FAR}*B\tB*" + 48 * "A", "..." + 9 * "*AAAA" + "*B.B*" + 44 * "A" + "...", 49 * " " + "^^^", 2)
        text = "..." + 9 * "*AAAA" + "*B.B" + 9 * "*AAAA" + "..."
        self.marked(f"{FAR}*B\tB" + 40 * "*AAAA", text, 49 * " " + "^^^", 2)

    def test_a_long_element_is_cut_too(self):
        text, mark = "...A*AAAA*" + 87 * "B" + "...", 10 * " " + 87 * "^"
        self.marked(f"{FAR}*" + 500 * "B" + "\t", text, mark, 2)
        # One of 80 is seen whole.
        text, mark = "...A*AAAA*" + 79 * "B" + "." + "*AAAA*A...", 10 * " " + 80 * "^"
        self.marked(f"{FAR}*" + 79 * "B" + "\t" + 40 * "*AAAA", text, mark, 2)

    def test_a_bin(self):
        def marked(counted, *wanted):
            self.assertEqual(lines(BEFORE_BIN + counted + ATTACHED + BEHIND_BIN).split("\n"), [*wanted, ""])

        place = "segment 7 byte 67 element"
        marked(b"BIN*7*", f"refused 10 {place} 2", "BIN*7*~*:..|'", "      ^^^^^^^")
        marked(b"BIN*9*", f"refused 10 {place} 2", "BIN*9*~*:..|'.~", "      ^^^^^^^^^")
        # Where no count is told, up to the next terminator.
        marked(b"BIN*0*", f"refused 10 {place} 1", "BIN*0*", "    ^")
        marked(b"BIN*0*A", f"refused 10 {place} 1", "BIN*0*A", "    ^")
        marked(b"BIN**", f"refused 10 {place} 1", "BIN**", "    ^")
        marked(b"BIN*8:", f"refused 10 {place} 1", "BIN*8:", "    ^^")
        marked(b"BIN*0000000000000008*", f"refused 10 {place} 1", "BIN*0000000000000008*", "    " + 16 * "^")
        # The data end inside.
        marked(b"BIN*999*", f"refused 3 {place} 0", "BIN*999*~*:..|'.~NCA**R1~SE*9*0001~", "^^^")
        self.assertEqual(lines(BEFORE_BIN + b"BIN*12"), f"refused 3 {place} 0\nBIN*12\n^^^\n")
        self.assertEqual(lines(BEFORE_BIN + b"BIN*0*"), f"refused 10 {place} 1\nBIN*0*\n    ^\n")

    def test_a_bin_out_of_place(self):
        out_of_place = WITH_BIN.replace(b"EFI*00~", b"")
        wanted = "refused 7 segment 6 byte 60 element 0\nBIN*8*~*:..|'.\n^^^\n"
        self.assertEqual(lines(out_of_place), wanted)

    def test_a_long_bin(self):
        data = BEFORE_BIN + b"BIN*4999*" + 5000 * b"\xff" + BEHIND_BIN
        wanted = f"refused 10 segment 7 byte 67 element 2\nBIN*4999*{88 * '.'}...\n{9 * ' '}{88 * '^'}\n"
        self.assertEqual(lines(data), wanted)

    def test_no_other_tag_counts(self):
        for tag in ("BIM", "bin", "BINS"):
            self.marked(f"{tag}*3*A", f"{tag}*3*A", len(tag) * "^", 5)

    def test_every_place(self):
        """A byte that is unfit, at every place of segments of every length: it is marked, and no line is too long."""
        for length in (*range(12), 90, 96, 97, 98, 99, 100, 101, 104, 105, 194, 200, 300):
            for place in range(length):
                element = bytearray(length * b"A")
                element[place] = 0
                before = b"BNR" + (place % 7) * b"*AAAAAAAAAAAA"
                for behind in (b"", b"*A", 40 * b"*AAA"):
                    segment = before + b"*" + element + behind
                    answer, text, mark, rest = lines(REPORT[:12] + segment + b"~").split("\n")
                    self.assertEqual(answer, f"refused 5 segment 2 byte 12 element {place % 7 + 1}")
                    self.assertLessEqual(len(text), 100)
                    self.assertRegex(mark, r"^ +\^+$")
                    self.assertLessEqual(len(mark), len(text))
                    self.assertTrue(len(text) == len(segment) or len(text) == 100)
                    under = text[len(mark) - mark.count("^") : len(mark)]
                    if length <= 80:
                        self.assertEqual(under, bytes(element).replace(b"\x00", b".").decode())
                    else:
                        self.assertGreaterEqual(len(under), 80)
                        self.assertLessEqual(set(under), set("A."))


if __name__ == "__main__":
    unittest.main()
