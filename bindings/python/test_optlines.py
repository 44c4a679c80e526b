"""Makes the calls of tests/c/calls.c again, through the module: every number with its place, the
order of the checks, the limits from both sides, the passes, the records, and every lent byte after
each call.

    python3 bindings/python/test_optlines.py
"""
import ctypes
import os
import re
import subprocess
import sys
import threading
import unittest

sys.dont_write_bytecode = True
HERE = os.path.dirname(os.path.abspath(__file__))
sys.path.insert(0, HERE)
import optlines as o

SPARE = 8
FILLED = 0xA5
ROOM = 2 * o.TEXT
ALL_EXACT = -1  # each work buffer is just as long as stated

SAMPLE = b"function f(a) {\n  let r0, r1, r2;\n  r0 = a;\n  r1 = g(r0);\n  return r1;\n}\n"
TIDY = b"function f(a) {\n  let r1 = g(a);\n  return r1;\n}\n"
ORIGINS = "00 3- 21 11 02 03"
GLOBALS = b"__runtime.DeclareGlobals(1);\nuse(a);\n"


def said(records):
    """The records that are said by the fate of each line and its line of the result, a digit or `-`
    for none, as in "00 3- 11"; or, where it is a number, so many lines that are kept as they are."""
    if isinstance(records, int):
        return [o.Record(i, o.EQUAL, i) for i in range(records)]
    return [o.Record(i, int(word[0]), None if word[1] == "-" else int(word[1]))
            for i, word in enumerate(records.split())]


def as_bytes(records):
    low = lambda number: number.to_bytes(2, "little")
    return b"".join(b"OL" + low(line) + bytes([fate]) + (b"\xff\xff" if output is None else low(output))
                    for line, fate, output in records)


def filled(kind, size):
    """A buffer of so many elements, every byte FILLED."""
    made = (kind * size)()
    ctypes.memset(made, FILLED, ctypes.sizeof(made))
    return made


class Part:
    """The front of a buffer: so many elements of it are lent."""

    def __init__(self, whole, size):
        self._as_parameter_ = ctypes.cast(whole, ctypes.c_void_p)
        self.size = size

    def __len__(self):
        return self.size


class Lent:
    """Buffers with some room behind what is stated, filled; `shorter` is which work buffer, from
    1, is lent one element short, 0 for none, or ALL_EXACT."""

    def __init__(self, shorter, room, records):
        self.whole = [filled(ctypes.c_uint8, o.BYTES + SPARE) for _ in range(5)]
        self.whole.append(filled(ctypes.c_uint32, o.BLOCKS + SPARE))
        self.out = filled(ctypes.c_uint8, ROOM + SPARE)
        self.orig = filled(ctypes.c_uint8, o.RECORDS + SPARE)
        self.shorter = shorter
        self.result = Part(self.out, room)
        self.records = Part(self.orig, records)

    def size(self, which):
        stated = o.BLOCKS if which == 6 else o.BYTES
        if which == self.shorter:
            return stated - 1
        return stated if self.shorter == ALL_EXACT else stated + SPARE

    def lent(self):
        sized = [(whole, self.size(which)) for which, whole in enumerate(self.whole, 1)]
        return [part for whole, size in sized for part in (Part(whole, size), size)]

    def work_is(self, ran):
        """Whether every work buffer is as it should be: 0 as far as stated where passes ran."""
        stated = [o.BYTES] * 5 + [4 * o.BLOCKS]
        for whole, size in zip(self.whole, stated):
            zeros = size if ran else 0
            wanted = bytes(zeros) + bytes([FILLED]) * (ctypes.sizeof(whole) - zeros)
            if bytes(whole) != wanted:
                return False
        return True


class Calls(unittest.TestCase):
    def expect(self, number, text, wanted, result=b"", origins="", shorter=0, room=ROOM,
               records=o.RECORDS, mode=o.PLAIN):
        lent = Lent(shorter, room, records)
        answer = o.call(number, text, lent, lent.result, lent.records, mode)
        self.assertEqual(answer, wanted)
        for buffer, front in ((lent.out, result), (lent.orig, as_bytes(said(origins)))):
            rest = bytes([FILLED]) * (len(buffer) - len(front))
            self.assertEqual(ctypes.string_at(buffer, len(buffer)), front + rest)
        ran = answer[0] in (o.DONE, o.SHORT_RESULT, o.SHORT_RECORDS)
        self.assertTrue(lent.work_is(ran), "a work buffer")

    def becomes(self, number, text, result, origins, **others):
        self.expect(number, text, (o.DONE, len(result), 0), result, origins, **others)

    def refused(self, number, text, refusal, place, **others):
        self.expect(number, text, (refusal, 0, place), **others)

    def test_results(self):
        self.becomes(0, SAMPLE, TIDY, ORIGINS)
        self.becomes(0, b"", b"", "")
        self.becomes(0, b"a\n\n", b"a\n", "00 01")
        self.becomes(1, b"let t1;\nt1 = 5;\nuse(t2);\n", b"let t1;\nuse(t2);\n", "00 3- 01")
        self.becomes(2, b"r0 = a;\nr1 = r0;\nr2 = r1;\nuse(r2);\n",
                     b"r0 = a;\nr1 = r0;\nuse(r1);\n", "00 01 22 12")
        self.becomes(3, b"phi1 = 2;\nphi2 = a;\nuse(phi2);\n", b"phi2 = a;\nuse(phi2);\n",
                     "3- 00 01")
        self.becomes(4, b"r3 = greet;\nr4 = 1;\nr3 = r3(r4);\nuse(r3);\n", b"use(greet(1));\n",
                     "20 20 20 10")
        self.becomes(5, b"let r007, r1, r2;\nuse(r7, r1);\n", b"let r7, r1;\nuse(r7, r1);\n",
                     "10 01")
        self.becomes(6, b"var x;\n  let r0;\n}\n  r0 = 1;\n", b"var x;\n}\n  let r0 = 1;\n",
                     "00 3- 01 12")

    def test_modes(self):
        call, link = b'= "a" + f() + "b";\n', b'= "http://x";\n'
        for number, names, head in ((1, (b"t0 ", b"t1 "), b"let t0, t1;\n"),
                                    (2, (b"r0 ", b"r1 "), b""), (0, (b"r0 ", b"r1 "), b"")):
            text = head + names[0] + call + names[1] + link
            plain, strict = ("00 3- 01", "00 01 3-") if head else ("3- 00", "00 3-")
            self.becomes(number, text, head + names[1] + link, plain, mode=o.PLAIN)
            self.becomes(number, text, head + names[0] + call, strict, mode=o.STRICT)
        phis = b'phi0 = "a" + f() + "b";\nphi1 = ["http://x"];\n'
        self.becomes(3, phis, b'["http://x"];\n', "3- 10", mode=o.PLAIN)
        self.becomes(3, phis, b'"a" + f() + "b";\n', "10 3-", mode=o.STRICT)
        for mode in (o.STRICT, o.JOINED, o.STRICT_JOINED):
            self.becomes(0, SAMPLE, TIDY, ORIGINS, mode=mode)

    def test_templates_over_lines(self):
        kept, raw = b'r1 = "a" + f() + "b";\n', b"  let r0;\nx = `{\n}`;\n  r0 = f();\n  use(r0);\n"
        called = b"  let r0;\nx = `{\n}`;\n  use(f());\n"
        bound = b"x = `{\n}`;\n  let r0 = f();\n  use(r0);\n"
        tidy = b"x = `{\n}`;\n  use(f());\n"
        for mode in (o.PLAIN, o.STRICT):
            self.becomes(4, raw, raw, 5, mode=mode)
            self.becomes(6, raw, raw, 5, mode=mode)
        for mode in (o.JOINED, o.STRICT_JOINED):
            self.becomes(4, raw, called, "00 01 02 23 13", mode=mode)
            self.becomes(6, raw, bound, "3- 00 01 12 03", mode=mode)
        self.becomes(0, kept + raw, raw, "3- 00 01 02 03 04", mode=o.PLAIN)
        self.becomes(0, kept + raw, kept + raw, 6, mode=o.STRICT)
        self.becomes(0, kept + raw, tidy, "3- 3- 00 01 22 12", mode=o.JOINED)
        self.becomes(0, kept + raw, kept + tidy, "00 3- 01 02 23 13", mode=o.STRICT_JOINED)

    def test_limits(self):
        self.becomes(0, b"x" * o.TEXT, b"x" * o.TEXT, 1)
        self.refused(0, b"x" * (o.TEXT + 1), o.TOO_LONG, o.TEXT)
        many = b"\n" * o.LINES
        self.becomes(0, many, many[1:], o.LINES)
        self.becomes(0, many, many[1:], o.LINES, shorter=ALL_EXACT)
        self.refused(0, many, o.SHORT_RECORDS, o.RECORDS, records=o.RECORDS - 1)
        self.refused(0, many + b"\n", o.TOO_MANY_LINES, o.LINES)
        crowd = b"a\n" + b"[" * o.BRACKETS
        self.becomes(0, crowd, crowd, 2)
        self.refused(0, crowd + b"[", o.CROWDED, 1)
        self.becomes(0, SAMPLE, TIDY, ORIGINS, room=len(TIDY))
        self.refused(0, SAMPLE, o.SHORT_RESULT, len(TIDY), room=len(TIDY) - 1)

    def test_records(self):
        """Record buffers of just the length, one byte short, and of no bytes."""
        for text, result, origins in (
                (SAMPLE, TIDY, ORIGINS), (b"a\nb", b"a\nb", 2), (b"\n\n", b"\n", 2), (b"\n", b"\n", 1),
                (GLOBALS, b"use(a);\n", "3- 00"), (b"let r0;\n", b"\n", "3-"),
                (b"a\r\nb\r", b"a\nb\r", 2), (b"r0 = x;\nphi1 = r0;\n", b"\n", "3- 3-"),
                (b"r0 = x;\nphi1 = f(r0);\n", b"f(x);\n", "20 10")):
            need = o.RECORD * len(said(origins))
            self.assertEqual(o.record_bytes(text), need)
            for mode in (o.PLAIN, o.STRICT, o.JOINED, o.STRICT_JOINED):
                self.becomes(0, text, result, origins, records=need, mode=mode)
                for number in range(7):
                    for lent in (need - 1, 0):
                        self.refused(number, text, o.SHORT_RECORDS, need, records=lent, mode=mode)
        self.becomes(5, GLOBALS, GLOBALS, 2)
        self.becomes(4, b"r1 = r1;\nuse(r1);\n", b"use(r1);\n", "20 00")
        self.refused(0, SAMPLE, o.SHORT_RESULT, len(TIDY), room=len(TIDY) - 1, records=0)
        self.refused(0, SAMPLE, o.SHORT_RECORDS, 42, room=len(TIDY), records=0)
        self.becomes(0, b"", b"", "", room=0, records=0)

    def test_order(self):
        bad = b"\xff" * (o.TEXT + 1)
        self.refused(7, SAMPLE, o.BAD_PASS, 0)
        self.refused(2**64 - 1, SAMPLE, o.BAD_PASS, 0)
        self.refused(7, bad, o.BAD_PASS, 0, shorter=1, room=0, records=0, mode=4)
        for mode in (4, 5, 2**64 - 1, 2**64, -1):
            self.refused(0, SAMPLE, o.BAD_MODE, 0, mode=mode)
            self.refused(0, bad, o.BAD_MODE, 0, shorter=1, room=0, records=0, mode=mode)
            self.refused(6, bad, o.BAD_MODE, 0, shorter=1, room=0, records=0, mode=mode)
        self.refused(0, bad, o.TOO_LONG, o.TEXT, shorter=1, room=0, records=0)
        self.refused(6, bad, o.TOO_LONG, o.TEXT, shorter=1, room=0, records=0)
        for shorter in range(1, 7):
            self.refused(6, bad[:3], o.SHORT_WORK, 0, shorter=shorter, room=0, records=0)
        crowd = b"\n" * (o.LINES + 1) + b"[" * (o.BRACKETS + 1)
        self.refused(0, crowd + b"\xff", o.NOT_UTF8, len(crowd), room=0, records=0)
        self.refused(0, crowd, o.TOO_MANY_LINES, o.LINES, room=0, records=0)
        self.refused(0, crowd[1 + o.LINES - 7:], o.CROWDED, 7, room=0, records=0)
        self.refused(0, b"ab\xe2\x82\n", o.NOT_UTF8, 2)
        self.refused(0, b"ab\xe2\x82", o.CUT, 2)
        self.refused(0, b"ab\xc0\x80", o.OVERLONG, 2)
        self.refused(0, b"ab\xed\xa0\x80", o.OUTSIDE, 2)

    def test_nothing_lent(self):
        """Null pointers where the length is 0."""
        self.refused(0, SAMPLE, o.SHORT_RESULT, len(TIDY), room=0)
        self.becomes(0, b"", b"", "", room=0)
        length, place = ctypes.c_size_t(1), ctypes.c_size_t(1)
        nothing = [None, 0] * 9 + [ctypes.byref(length), ctypes.byref(place)]
        for entry, number in ((o._optimize, o.SHORT_WORK), (o._run_pass, o.BAD_PASS)):
            length.value = place.value = 1
            first = [0, o.PLAIN] if entry is o._run_pass else [o.PLAIN]
            self.assertEqual(entry(*first, *nothing), number)
            self.assertEqual((length.value, place.value), (0, 0))


class Module(unittest.TestCase):
    """optimize and run_pass, their errors, and how the library is found."""

    def gives(self, tidy, text, origins):
        records = said(origins)
        self.assertEqual(tidy, o.Tidy(text, records, as_bytes(records)))

    def test_results(self):
        self.gives(o.optimize(SAMPLE), TIDY, ORIGINS)
        self.gives(o.optimize(b""), b"", "")
        self.gives(o.optimize(b"\n" * o.LINES), b"\n" * (o.LINES - 1), o.LINES)
        self.gives(o.run_pass(6, b"let r0;\nr0 = 1;\n"), b"let r0 = 1;\n", "3- 10")
        link = b'r0 = "http://x";\nkeep();\n'
        for run in (o.optimize, lambda *given: o.run_pass(2, *given)):
            self.gives(run(link), link, 2)
            self.gives(run(link, o.STRICT), b"keep();\n", "3- 00")

    def test_records(self):
        tidy = o.optimize(SAMPLE)
        self.assertEqual(tidy.records[2], (2, o.INSIDE, 1))
        self.assertEqual((tidy.records[1].fate, tidy.records[1].output), (o.GONE, None))
        self.assertEqual(o.read_records(b"OL\1\2\1\3\1"), [o.Record(513, o.CHANGED, 259)])
        self.assertEqual(o.read_records(b""), [])

    def raises(self, number, place, words, run, *given):
        with self.assertRaises(o.Refused) as caught:
            run(*given)
        error = caught.exception
        self.assertEqual((error.number, error.place, error.words), (number, place, words))
        self.assertEqual(str(error), words)

    def test_refusals(self):
        no_pass = "there is no such pass: they are 1 to 6"
        for number in (0, 7, -1, 2**64 - 1, 2**64 + 1):
            self.raises(o.BAD_PASS, 0, no_pass, o.run_pass, number, SAMPLE)
        no_mode = "there is no such mode: they are 0 to 3"
        for mode in (4, -1, 2**64):
            self.raises(o.BAD_MODE, 0, no_mode, o.optimize, SAMPLE, mode)
            self.raises(o.BAD_MODE, 0, no_mode, o.run_pass, 6, SAMPLE, mode)
        long, many = b"x" * (o.TEXT + 1), b"\n" * (o.LINES + 1)
        self.raises(o.TOO_LONG, o.TEXT, "the text is longer than 16384 bytes", o.optimize, long)
        self.raises(o.NOT_UTF8, 2, "the text is not UTF-8: see byte 2, counted from 0",
                    o.optimize, b"ab\xff")
        self.raises(o.CUT, 2, "the text was cut: it ends within the character at byte 2, "
                    "counted from 0", o.optimize, b"ab\xe2\x82")
        self.raises(o.OVERLONG, 2, "the text has an overlong form: see byte 2, counted from 0",
                    o.optimize, b"ab\xc0\x80")
        self.raises(o.OUTSIDE, 2, "the text has a surrogate or a value above U+10FFFF: see byte 2, "
                    "counted from 0", o.optimize, b"ab\xed\xa0\x80")
        self.raises(o.TOO_MANY_LINES, o.LINES, "the text has more than 1024 lines",
                    o.optimize, many)
        self.raises(o.CROWDED, 1, "line 2 has more than 64 bytes '['",
                    o.optimize, b"a\n" + b"[" * (o.BRACKETS + 1))
        self.assertEqual(str(o.Refused(o.SHORT_RECORDS, 42)), "the records need 42 bytes of room")
        unknown = "refused with number 99 and place 5, unknown to this module"
        self.assertEqual(str(o.Refused(99, 5)), unknown)

    def test_text_must_be_bytes(self):
        for wrong in ("let r0;", None, bytearray(b"a")):
            one = filled(ctypes.c_uint8, 1)
            self.assertRaises(TypeError, o.call, 0, wrong, o.Work(), one, one)
        self.assertRaises(TypeError, o.optimize, "let r0;")

    def test_threads(self):
        others = []

        def repeat(text, result):
            others.extend(1 for _ in range(200) if o.optimize(text).text != result)

        call = b"r3 = greet;\nr4 = 1;\nr3 = r3(r4);\nuse(r3);\n"
        pairs = ((SAMPLE, TIDY), (call, b"use(greet(1));\n"))
        threads = [threading.Thread(target=repeat, args=pair) for pair in pairs]
        for thread in threads:
            thread.start()
        for thread in threads:
            thread.join()
        self.assertEqual(others, [])

    def imported(self, start, **changed):
        """What an import in another Python says on standard error; it must fail."""
        words = [sys.executable, "-c", start + "import optlines"]
        ran = subprocess.run(words, cwd=HERE, env={**os.environ, **changed}, stderr=subprocess.PIPE)
        self.assertEqual(ran.returncode, 1)
        return ran.stderr.decode()

    def test_no_library(self):
        said = self.imported("", OPTLINES_LIBRARY="/nowhere/liboptlines.so.3")
        self.assertIn("ImportError: optlines: cannot load /nowhere/liboptlines.so.3", said)
        self.assertIn("run `make lib` in the repository, or set OPTLINES_LIBRARY", said)

    def test_another_library(self):
        said = self.imported("", OPTLINES_LIBRARY="libc.so.6")
        self.assertIn("ImportError: optlines: cannot load libc.so.6", said)

    def test_another_machine(self):
        start = "import platform; platform.machine = lambda: 'aarch64'; "
        said = self.imported(start)
        self.assertIn("the library is for x86-64 Linux, and this Python is for aarch64", said)


class Header(unittest.TestCase):
    """The constants of the module are those of include/optlines.h, which is read as text."""

    def setUp(self):
        with open(os.path.join(HERE, "..", "..", "include", "optlines.h")) as header:
            self.text = header.read()

    def test_defines(self):
        found = re.findall(r"^#define OPTLINES_(\w+) (.+)$", self.text, re.M)
        self.assertEqual(sorted(name for name, _ in found),
                         ["BLOCKS", "BRACKETS", "BYTES", "JOINED", "LARGE_BLOCKS", "LARGE_BYTES",
                          "LARGE_LINES", "LARGE_NOTES", "LARGE_NO_LINE", "LARGE_OWNERS",
                          "LARGE_PLACES", "LARGE_RECORD", "LARGE_RECORDS", "LARGE_TEXT", "LINES",
                          "NO_LINE", "OL", "OL_LINES", "OM", "PLAIN", "RECORD", "RECORDS", "STACK",
                          "STRICT", "STRICT_JOINED", "TEXT"])
        for name, value in found:
            self.assertEqual(getattr(o, name), int(value), name)

    def test_numbers(self):
        found = re.findall(r"^    OPTLINES_(\w+) = (\d+)", self.text, re.M)
        self.assertEqual(len(found), 15 + 4)  # the numbers and the fates
        for name, value in found:
            if name != "OVERLAP":  # of the inline function for C alone
                self.assertEqual(getattr(o, name), int(value), name)


if __name__ == "__main__":
    unittest.main()
