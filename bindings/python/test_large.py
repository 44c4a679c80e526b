"""Calls the functions for larger texts through the module: each limit and each buffer's size from
both sides, both forms of records, passes, modes, every refusal that is theirs, and every lent byte
after each call.

    python3 bindings/python/test_large.py
"""
import ctypes
import sys
import unittest

sys.dont_write_bytecode = True
import optlines as o
from test_optlines import FILLED, ORIGINS, SAMPLE, SPARE, TIDY, Part, filled, said

ROOM = 2 * o.LARGE_TEXT
WORK = range(len(o.LargeWork.SIZES))
MODES = (o.PLAIN, o.STRICT, o.JOINED, o.STRICT_JOINED)


def as_bytes(form, records):
    """The records as bytes of a form."""
    mark, width = (b"OL", 2) if form == o.OL else (b"OM", 4)
    low = lambda number: number.to_bytes(width, "little")
    gone = 256 ** width - 1
    return b"".join(mark + low(line) + bytes([fate]) + low(gone if output is None else output)
                    for line, fate, output in records)


class Lent:
    """Buffers with some room behind what is stated, filled; `spare` elements of it are lent, and of
    the work buffer `shorter`, from 0, one element less than stated."""

    def __init__(self):
        self.whole = [filled(kind, size + SPARE) for kind, size in o.LargeWork.SIZES]
        self.out = filled(ctypes.c_uint8, ROOM + SPARE)
        self.orig = filled(ctypes.c_uint8, o.LARGE_RECORDS + SPARE)

    def sizes(self, shorter, spare):
        return [size - 1 if i == shorter else size + spare
                for i, (_, size) in enumerate(o.LargeWork.SIZES)]

    def lend(self, shorter, spare):
        self.parts = [Part(*each) for each in zip(self.whole, self.sizes(shorter, spare))]
        return self

    def lent(self):
        return [word for part in self.parts for word in (part, part.size)]

    def wrong(self, ran):
        """The work buffers that are not as they should be; all are filled again."""
        found = []
        for i, (kind, size) in enumerate(o.LargeWork.SIZES):
            zeros = size * ctypes.sizeof(kind) if ran else 0
            all_bytes = ctypes.sizeof(self.whole[i])
            if bytes(self.whole[i]) != bytes(zeros) + bytes([FILLED]) * (all_bytes - zeros):
                found.append(i)
            ctypes.memset(self.whole[i], FILLED, all_bytes)
        return found


class Large(unittest.TestCase):
    @classmethod
    def setUpClass(cls):
        cls.room = Lent()

    def held(self, buffer, front):
        """Whether a buffer has just these bytes in front; it is filled again."""
        rest = bytes([FILLED]) * (len(buffer) - len(front))
        right = ctypes.string_at(buffer, len(buffer)) == front + rest
        ctypes.memset(buffer, FILLED, len(buffer))
        return right

    def expect(self, number, text, wanted, result=b"", origins=b"", form=o.OM, mode=o.PLAIN,
               shorter=None, spare=SPARE, room=ROOM, records=o.LARGE_RECORDS):
        lent = self.room.lend(shorter, spare)
        out, orig = Part(lent.out, room), Part(lent.orig, records)
        answer = o.call_large(number, text, lent, out, orig, mode, form)
        self.assertEqual(answer, wanted)
        self.assertTrue(self.held(lent.out, result), "the result buffer")
        self.assertTrue(self.held(lent.orig, origins), "the record buffer")
        ran = answer[0] in (o.DONE, o.SHORT_RESULT, o.SHORT_RECORDS)
        self.assertEqual(lent.wrong(ran), [], "work buffers")

    def becomes(self, number, text, result, origins, form=o.OM, **others):
        self.expect(number, text, (o.DONE, len(result), 0), result, as_bytes(form, origins),
                    form=form, **others)

    def refused(self, number, text, refusal, place, **others):
        self.expect(number, text, (refusal, 0, place), **others)

    def test_passes(self):
        for form in (o.OL, o.OM, 2, -1):
            self.becomes(0, SAMPLE, TIDY, said(ORIGINS), form=form)
            self.becomes(5, b"let r7, r2;\nuse(r7);\n", b"let r7;\nuse(r7);\n", said("10 01"),
                         form=form)
            self.becomes(6, b"let r0;\nr0 = 1;\n", b"let r0 = 1;\n", said("3- 10"), form=form)
        for mode in MODES:
            self.becomes(0, SAMPLE, TIDY, said(ORIGINS), mode=mode)

    def test_bytes(self):
        text = b"x" * o.LARGE_TEXT
        for form in (o.OL, o.OM):
            self.becomes(0, text, text, said(1), form=form)
            for number in (0, 6):
                self.refused(number, text + b"x", o.TOO_LONG, o.LARGE_TEXT, form=form)

    def test_lines(self):
        for number in (0, 4):
            for form, lines in ((o.OL, o.OL_LINES), (o.OM, o.OL_LINES), (o.OM, o.OL_LINES + 1),
                                (o.OM, o.LARGE_LINES)):
                self.becomes(number, b"\n" * lines, b"\n" * (lines - 1), said(lines), form=form)
            for lines in (o.OL_LINES + 1, o.LARGE_LINES):
                self.refused(number, b"\n" * lines, o.WIDE_LINES, o.OL_LINES, form=o.OL)
            for form in (o.OL, o.OM):
                self.refused(number, b"\n" * (o.LARGE_LINES + 1), o.TOO_MANY_LINES, o.LARGE_LINES,
                             form=form)

    def test_sizes(self):
        for form, need in ((o.OL, 42), (o.OM, 66)):
            self.assertEqual(o.record_bytes(SAMPLE, form), need)
            exact = len(TIDY)
            self.becomes(0, SAMPLE, TIDY, said(ORIGINS), form=form, spare=0, room=exact,
                         records=need)
            self.refused(0, SAMPLE, o.SHORT_RESULT, exact, form=form, room=exact - 1, records=0)
            for number in (0, 5):
                self.refused(number, SAMPLE, o.SHORT_RECORDS, need, form=form, records=need - 1)
        for shorter in WORK:
            self.refused(0, SAMPLE, o.SHORT_WORK, 0, shorter=shorter)
            self.refused(6, SAMPLE, o.SHORT_WORK, 0, shorter=shorter, form=o.OL)
        for form, lines, need in ((o.OL, o.OL_LINES, 458745), (o.OM, o.LARGE_LINES, 1100000)):
            self.refused(0, b"\n" * lines, o.SHORT_RECORDS, need, form=form, records=need - 1)

    def test_long_text(self):
        times = o.LARGE_TEXT // len(SAMPLE)
        records = [o.Record(line + 6 * i, fate, None if output is None else output + 4 * i)
                   for i in range(times) for line, fate, output in said(ORIGINS)]
        self.becomes(0, SAMPLE * times, TIDY * times, records)

    def test_order(self):
        bad = b"\xff" * (o.LARGE_TEXT + 1)
        nothing = {"room": 0, "records": 0}
        self.refused(7, bad, o.BAD_PASS, 0, shorter=0, mode=4, **nothing)
        for number in (0, 6):
            self.refused(number, bad, o.BAD_MODE, 0, shorter=0, mode=4, **nothing)
            self.refused(number, bad, o.TOO_LONG, o.LARGE_TEXT, shorter=0, **nothing)
            self.refused(number, bad[1:], o.SHORT_WORK, 0, shorter=0, **nothing)
        crowd = b"\n" * (o.LARGE_LINES + 1) + b"[" * (o.BRACKETS + 1)
        wide = crowd[o.LARGE_LINES - o.OL_LINES:]
        for form in (o.OL, o.OM):
            self.refused(0, crowd + b"\xff", o.NOT_UTF8, len(crowd), form=form, **nothing)
            self.refused(0, crowd, o.TOO_MANY_LINES, o.LARGE_LINES, form=form, **nothing)
            self.refused(0, wide[2:], o.CROWDED, o.OL_LINES - 1, form=form, **nothing)
        self.refused(0, wide, o.WIDE_LINES, o.OL_LINES, form=o.OL, **nothing)
        self.refused(0, wide, o.CROWDED, o.OL_LINES + 1, form=o.OM, **nothing)

    def test_nothing_lent(self):
        length, place = ctypes.c_size_t(1), ctypes.c_size_t(1)
        nothing = [None, 0] * 21 + [ctypes.byref(length), ctypes.byref(place)]
        self.assertEqual(o._optimize_large(o.PLAIN, o.OM, *nothing), o.SHORT_WORK)
        self.assertEqual(o._run_pass_large(0, o.PLAIN, o.OM, *nothing), o.BAD_PASS)
        self.assertEqual((length.value, place.value), (0, 0))


class Module(unittest.TestCase):
    """optimize_large and run_pass_large, and their errors."""

    def test_results(self):
        work = o.LargeWork()
        for form in (o.OL, o.OM):
            for mode in MODES:
                wanted = o.Tidy(TIDY, said(ORIGINS), as_bytes(form, said(ORIGINS)))
                self.assertEqual(o.optimize_large(SAMPLE, mode, form, work), wanted)
        self.assertEqual(o.optimize_large(SAMPLE), wanted)
        one = o.run_pass_large(6, b"let r0;\nr0 = 1;\n")
        self.assertEqual(one[:2], (b"let r0 = 1;\n", said("3- 10")))
        self.assertEqual(o.optimize_large(b""), o.Tidy(b"", [], b""))
        many = o.optimize_large(b"a\n" * o.LARGE_LINES)
        self.assertEqual(many.records[-1], o.Record(o.LARGE_LINES - 1, o.EQUAL, o.LARGE_LINES - 1))

    def raises(self, number, place, words, run, *given):
        with self.assertRaises(o.Refused) as caught:
            run(*given)
        error = caught.exception
        self.assertEqual((error.number, error.place, str(error)), (number, place, words))

    def test_refusals(self):
        long, many = b"x" * (o.LARGE_TEXT + 1), b"\n" * (o.LARGE_LINES + 1)
        self.raises(o.TOO_LONG, o.LARGE_TEXT, "the text is longer than 1048576 bytes",
                    o.optimize_large, long)
        self.raises(o.TOO_MANY_LINES, o.LARGE_LINES, "the text has more than 100000 lines",
                    o.run_pass_large, 6, many)
        self.raises(o.WIDE_LINES, o.OL_LINES, "the form OL has numbers for 65535 lines: ask for OM",
                    o.optimize_large, many[1:], o.PLAIN, o.OL)
        for number in (0, 7):
            self.raises(o.BAD_PASS, 0, "there is no such pass: they are 1 to 6",
                        o.run_pass_large, number, SAMPLE)
        self.assertRaises(TypeError, o.optimize_large, "let r0;")


if __name__ == "__main__":
    unittest.main()
