"""The reader of certificates."""
import io
import unittest
from fractions import Fraction

from tests.support import stored, stored_draws

from boltz.certificate import Certificate, CertificateError


def certificate(text: str) -> Certificate:
    """A certificate over a text."""
    return Certificate(io.StringIO(text))


class CertificateTest(unittest.TestCase):
    def test_every_stored_draw_is_read(self):
        rows = stored_draws()
        self.assertGreater(len(rows), 8)
        for row in rows:
            read = Certificate(io.BytesIO(stored(row)))
            entries = list(read)
            self.assertEqual(len(entries), read.closing.kept, row)
            self.assertGreaterEqual(read.closing.bits, sum(entry.bits() for entry in entries))

    def test_fields(self):
        read = certificate(stored("draw_labelled_tree").decode())
        self.assertEqual(
            (read.header.mode, read.header.x, read.header.fraction),
            ("labelled", Fraction(9, 25), 48),
        )
        self.assertEqual(list(read.header.base), ["T"])
        entry = next(iter(read))
        self.assertEqual((entry.number, entry.place, entry.size), (1, 0, 6))
        self.assertEqual(entry.cells()[0], (1614, 11))
        self.assertIsNone(read.closing)
        self.assertEqual(read.read_to_end().word, "done")

    def test_an_undecided_ending_has_its_line(self):
        read = certificate(stored("draw_undecided").decode())
        self.assertEqual(list(read), [])
        self.assertTrue(read.closing.undecided.startswith("undecided node "))

    def test_a_certificate_that_stops_early_is_partial(self):
        text = stored("draw_labelled_tree").decode()
        for place in range(len(text)):
            with self.assertRaises(CertificateError):
                read = None
                read = certificate(text[:place])
                read.read_to_end()
            if read is not None:
                self.assertTrue(read.partial, place)

    def test_a_wrong_line_is_named(self):
        text = stored("draw_labelled_tree").decode().replace("cells ", "cell ")
        with self.assertRaisesRegex(CertificateError, "line 10: wanted cells"):
            certificate(text).read_to_end()

    def test_a_refusal_is_no_certificate(self):
        with self.assertRaisesRegex(CertificateError, "the program refused"):
            certificate("refused value x\n")


if __name__ == "__main__":
    unittest.main()
