"""The number of a quantity: what is one, its value, places and exponent, and its decimal."""

import copy
import decimal
import itertools
import pickle
import random
import unittest
from decimal import Decimal

from stormhlaw import Number, Reason, Refused, number, read
from tests.fuzzing import any_quantity, number_of
from tests.reports import with_segment
from tests.test_buffers import KINDS

FIT = {
    b"-0.50": (-50, 2, 0, False),
    b"-0": (0, 0, 0, False),
    b"-0.00": (0, 2, 0, False),
    b"25": (25, 0, 0, False),
    b"5.": (5, 0, 0, False),
    b"-.5": (-5, 1, 0, False),
    b"1.0": (10, 1, 0, False),
    b"5.E1": (5, 0, 1, True),
    b".5E1": (5, 1, 1, True),
    b"5E-0": (5, 0, 0, True),
    b"5E-07": (5, 0, -7, True),
    b"-12.34E99": (-1234, 2, 99, True),
    b"0E-99": (0, 0, -99, True),
    b"000000000000007": (7, 0, 0, False),
    b"999999999999999": (999_999_999_999_999, 0, 0, False),
    b"-.999999999999999E-99": (-999_999_999_999_999, 15, -99, True),
}

UNFIT = (
    b"", b"-", b".", b"-.", b"E", b"E5", b"-E5", b".E5", b"5E", b"5E-", b"5E+1", b"5e1", b"5E123", b"5E-007", b"5E1.0",
    b"5E1E1", b"+1", b"--1", b"1-", b"1.2.3", b"1,5", b" 5", b"5 ", b"5A", b"1_0", b"NaN", b"Infinity",
    b"1000000000000000", b"0000000000000000", b"1.000000000000000", b".0000000000000000",
)  # fmt: skip


class Numbers(unittest.TestCase):
    def test_quantities(self):
        for text, wanted in FIT.items():
            with self.subTest(text):
                found = number(text)
                self.assertEqual(found, wanted)
                self.assertEqual((found.value, found.places, found.exponent, found.written), wanted)
                self.assertEqual([type(field) for field in found], [int, int, int, bool])
                self.assertIs(type(found), Number)

    def test_other_texts(self):
        for text in (*UNFIT, b"5\x00", b"\xff5", "\uff15".encode(), 1_000_000 * b"1"):
            self.assertIsNone(number(text))

    def test_every_short_text_of_these_bytes(self):
        for length in range(7):
            for letters in itertools.product(b"-.E07+", repeat=length):
                text = bytes(letters)
                self.assertEqual(number(text), number_of(text), text)

    def test_every_byte(self):
        for byte in range(256):
            for text in (bytes([byte]), bytes([53, byte]), bytes([byte, 53]), bytes([53, 69, byte])):
                self.assertEqual(number(text), number_of(text), text)

    def test_fields_are_fixed_and_travel(self):
        found = number(b"-0.50")
        with self.assertRaises(AttributeError):
            found.value = 1
        for other in (pickle.loads(pickle.dumps(found)), copy.copy(found), copy.deepcopy(found)):
            self.assertEqual(other, found)
            self.assertIs(type(other), Number)
        self.assertEqual(repr(found), "Number(value=-50, places=2, exponent=0, written=False)")


class Decimals(unittest.TestCase):
    def same(self, text):
        """The decimal is that of the text, digit by digit, but that a zero has no sign."""
        found, wanted = number(text).decimal, Decimal(text.decode())
        self.assertEqual(found.as_tuple(), (wanted if wanted else abs(wanted)).as_tuple(), text)

    def test_examples(self):
        shown = {
            b"-0.50": "-0.50", b"-0": "0", b"-0.00": "0.00", b"007": "7", b"5.": "5", b".5E1": "5", b"5.E1": "5E+1",
            b"5E-2": "0.05", b"1.0": "1.0",
        }  # fmt: skip
        for text, wanted in shown.items():
            self.assertEqual(str(number(text).decimal), wanted)
        self.assertEqual(number(b"1.0").decimal, number(b"1").decimal)
        self.assertNotEqual(number(b"1.0"), number(b"1"))

    def test_every_place_and_exponent(self):
        for text in FIT:
            self.same(text)
        for count, exponent in itertools.product(range(1, 16), range(-99, 100)):
            digits = b"120456789012345"[:count]
            point = (count + exponent) % (count + 1)
            self.same(b"-%b.%bE%d" % (digits[:point], digits[point:], exponent))

    def test_generated_texts(self):
        chance, fit = random.Random(842), 0
        for _ in range(20_000):
            text = any_quantity(chance)
            found = number(text)
            self.assertEqual(found, number_of(text), text)
            if found is not None:
                self.same(text)
                fit += 1
        self.assertGreater(fit, 5_000)

    def test_the_context_changes_nothing(self):
        coarse = decimal.Context(prec=1, Emin=0, Emax=0, traps=[decimal.Inexact, decimal.Rounded, decimal.Subnormal])
        wanted = number(b"-12345.6789E-50").decimal
        with decimal.localcontext(coarse):
            found = number(b"-12345.6789E-50").decimal
        self.assertEqual(found.as_tuple(), wanted.as_tuple())
        self.assertEqual(found.as_tuple(), Decimal("-12345.6789E-50").as_tuple())


class Texts(unittest.TestCase):
    def test_every_kind_of_bytes(self):
        text = b"-000012345.67E10"
        for kind, make in KINDS.items():
            with self.subTest(kind):
                self.assertEqual(number(make(text)), (-1234567, 2, 10, True))
                self.assertIsNone(number(make(text.replace(b"E", b"e"))))

    def test_nothing_is_held_after_a_call(self):
        text = bytearray(b"-0.50")
        number(text)
        text += b"E1"
        self.assertEqual(number(text), (-50, 2, 1, True))

    def test_no_bytes(self):
        for value, kind in (("5", "str"), (None, "None"), (5, "int"), (Decimal(5), "Decimal"), ([53], "list")):
            with self.assertRaises(TypeError) as caught:
                number(value)
            self.assertEqual(str(caught.exception), f"text: bytes, bytearray or memoryview wanted, not {kind}")
        self.assertRaises(TypeError, number)
        self.assertRaises(TypeError, number, b"5", b"5")

    def test_a_released_view(self):
        view = memoryview(b"5")
        view.release()
        with self.assertRaises(ValueError) as caught:
            number(view)
        wanted = "text: bytes, bytearray or memoryview wanted, not a released memoryview"
        self.assertEqual(str(caught.exception), wanted)


class Readings(unittest.TestCase):
    def refused(self, nca, element_number):
        """W1 with this NCA is refused there, at that element."""
        with self.assertRaises(Refused) as caught:
            read(with_segment(6, nca))
        refusal = caught.exception.refusal
        found = (refusal.reason, refusal.segment, refusal.byte, refusal.element)
        self.assertEqual(found, (Reason.VALUE_UNFIT, 6, 60, element_number), nca)

    def test_quantities_are_accepted(self):
        for text, wanted in FIT.items():
            data = with_segment(6, f"NCA**R1**{text.decode()}*EA:{text.decode()}")
            nca = read(data).segments[5].segment(data)
            self.assertEqual(number(nca.element(4)), wanted)
            self.assertEqual(number(nca.component(5, 2)), wanted)

    def test_other_texts_are_refused(self):
        for text in filter(None, UNFIT):
            self.refused(f"NCA**R1**{text.decode()}*EA", 4)
            self.refused(f"NCA**R1**5*EA:{text.decode()}", 5)

    def test_ten_digits_in_every_third_component(self):
        for fits, longer in (("1234567890", "12345678901"), ("-1.234567890E-99", "-1.2345678900E-99")):
            read(with_segment(6, f"NCA**R1**5*EA:1:{fits}"))
            self.refused(f"NCA**R1**5*EA:1:{longer}", 5)
            self.assertIsNotNone(number(longer.encode()))


if __name__ == "__main__":
    unittest.main()
