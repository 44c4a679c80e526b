"""From a line of a tidy text back to the raw lines behind it: optrecords reads what optlines wrote.

    python3 bindings/python/test_jump.py
"""
import os
import sys
import unittest

sys.dont_write_bytecode = True
HERE = os.path.dirname(os.path.abspath(__file__))
SAMPLE = os.path.join(HERE, "..", "..", "docs", "sample", "chapel")
sys.path.insert(0, HERE)
import optlines
import optrecords


class Jump(unittest.TestCase):
    def agrees(self, tidy):
        """optrecords takes the records, and reads the same."""
        told = [(record.fate, record.output) for record in tidy.records]
        self.assertEqual(optrecords.read(tidy.origins), told)
        for n in range(len(told) + 1):
            behind = [record.line for record in tidy.records if record.output == n]
            self.assertEqual(optrecords.lines(tidy.origins, n), behind)

    def test_a_call_and_what_it_took_in(self):
        tidy = optlines.optimize(b"r3 = greet;\nr4 = 1;\nr3 = r3(r4);\nuse(r3);\nend();\n")
        self.assertEqual(tidy.text, b"use(greet(1));\nend();\n")
        self.assertEqual([optrecords.lines(tidy.origins, n) for n in (0, 1, 2, optlines.NO_LINE)],
                         [[0, 1, 2, 3], [4], [], []])

    def test_the_sample_by_each_entry(self):
        with open(SAMPLE + ".txt", "rb") as sample, open(SAMPLE + ".ol", "rb") as origins:
            text = sample.read()
            self.assertEqual(optlines.optimize(text).origins, origins.read())
        for mode in (optlines.PLAIN, optlines.STRICT, optlines.JOINED, optlines.STRICT_JOINED):
            self.agrees(optlines.optimize(text, mode))
            for number in range(1, 7):
                self.agrees(optlines.run_pass(number, text, mode))
        self.agrees(optlines.optimize(b""))

    def test_the_sample_in_either_form(self):
        with open(SAMPLE + ".txt", "rb") as sample:
            text = sample.read()
        first, om = optlines.optimize(text), optlines.optimize_large(text)
        self.agrees(om)
        self.assertEqual(optlines.optimize_large(text, form=optlines.OL), first)
        self.assertEqual(optrecords.to_om(first.origins), om.origins)
        self.assertEqual(om[:2], first[:2])

    def test_fates(self):
        for name in ("EQUAL", "CHANGED", "INSIDE", "GONE"):
            self.assertEqual(getattr(optlines, name), getattr(optrecords, name))


if __name__ == "__main__":
    unittest.main()
