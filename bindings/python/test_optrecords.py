"""Calls the module for record files: both forms, there and back, every refusal with its place and words.

    python3 bindings/python/test_optrecords.py
"""
import os
import sys
import unittest

sys.dont_write_bytecode = True
sys.path.insert(0, os.path.dirname(os.path.abspath(__file__)))
import optrecords as o

OLD = b"OL\0\0\0\0\0OL\1\0\2\1\0OL\2\0\1\1\0OL\3\0\3\xff\xff"
NEW = b"OM\0\0\0\0\0\0\0\0\0OM\1\0\0\0\2\1\0\0\0OM\2\0\0\0\1\1\0\0\0OM\3\0\0\0\3\xff\xff\xff\xff"
SAID = [(o.EQUAL, 0), (o.INSIDE, 1), (o.CHANGED, 1), (o.GONE, None)]


def changed(file, at, *new):
    return file[:at] + bytes(new) + file[at + len(new):]


class Records(unittest.TestCase):
    def test_reads_either_form(self):
        for file in (OLD, NEW):
            self.assertEqual(o.check(file), 4)
            self.assertEqual(o.read(file), SAID)
            self.assertEqual(o.record(file, 4), (o.GONE, None))
            self.assertEqual([o.lines(file, n) for n in (0, 1, 2, 65535, 2**70)], [[0], [1, 2], [], [], []])
        self.assertEqual((o.check(b""), o.read(b""), o.lines(b"", 0)), (0, [], []))

    def test_there_and_back(self):
        self.assertEqual((o.to_om(OLD), o.to_ol(NEW), o.to_ol(OLD), o.to_om(NEW)), (NEW, OLD, OLD, NEW))
        self.assertEqual((o.to_om(b""), o.to_ol(b"")), (b"", b""))

    def test_refusals(self):
        rows = ((OLD[:-1], o.CUT, 3), (changed(OLD, 8, ord("M")), o.WRONG_MARK, 1), (changed(OLD, 9, 2), o.OUT_OF_ORDER, 1),
                (changed(OLD, 11, 4), o.UNKNOWN_FATE, 1), (changed(OLD, 27, 0), o.DISAGREE, 3))
        for file, number, place in rows:
            for call in (o.check, o.read, o.to_ol, o.to_om, lambda file: o.lines(file, 0)):
                with self.assertRaises(o.Refused) as caught:
                    call(file)
                self.assertEqual((caught.exception.number, caught.exception.place), (number, place))
                self.assertIn(str(place), str(caught.exception))
        with self.assertRaises(o.Refused) as caught:
            o.to_ol(changed(NEW, 18, 255, 255, 0, 0))
        self.assertEqual((caught.exception.number, caught.exception.place), (o.UNFIT, 1))

    def test_text_is_no_file(self):
        for call in (o.check, o.to_ol, o.to_om):
            with self.assertRaises(TypeError):
                call("OL")


if __name__ == "__main__":
    unittest.main()
