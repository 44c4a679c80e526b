"""Every answer of both functions, what they leave in lent room, and a file with translations.

    python3 bindings/python/test_optpo.py
"""
import ctypes
import os
import sys
import unittest

sys.dont_write_bytecode = True
sys.path.insert(0, os.path.dirname(os.path.abspath(__file__)))
import optpo as o

HEAD = b'msgid ""\nmsgstr ""\n"Content-Type: text/plain; charset=UTF-8\\n"\n'
LISTING = b"""say("hello"); // "no"\nx('it\\'s', "hello", "");\n"""
FILLED = 0xA5


def file(first, second):
    return HEAD + (b'\n#: f:1\nmsgid "hello"\nmsgstr "%s"\n\n#: f:2\nmsgid "it\'s"\nmsgstr "%s"\n'
                   % (first, second))


class Calls(unittest.TestCase):
    def refuses(self, number, place, function, *words):
        with self.assertRaises(o.Refused) as caught:
            function(*words)
        self.assertEqual((caught.exception.number, caught.exception.place), (number, place))

    def test_written_and_read_back(self):
        self.assertEqual(o.write(b"f", LISTING), file(b"", b""))
        self.assertEqual(o.write(b"f", b""), HEAD)
        self.assertEqual(o.read(file(b"", b"")), [(b"hello", b""), (b"it's", b"")])
        filled = file("gr\u00fcezi".encode(), b'a\\tb\\n\\"\\\\')
        expected = [(b"hello", "gr\u00fcezi".encode()), (b"it's", b'a\tb\n"\\')]
        self.assertEqual(o.read(filled), expected)

    def test_refusals(self):
        self.refuses(o.BAD_NAME, 0, o.write, b"", LISTING)
        self.refuses(o.BAD_NAME, 1, o.write, b"a b", LISTING)
        self.refuses(o.NOT_UTF8, 2, o.write, b"f", b"ab\xff")
        self.refuses(o.OTHER_ESCAPE, 6, o.write, b"f", b'x = "a\\q";')
        self.refuses(o.OPEN, 4, o.write, b"f", b"x = 'a\n")
        self.refuses(o.BAD_LINE, 0, o.read, b"")
        self.refuses(o.BAD_LINE, 6, o.read, file(b"\t", b""))
        self.assertEqual(str(o.Refused(o.BAD_LINE, 6)), "line 7 is missing, or is not of the form")
        with self.assertRaises(TypeError):
            o.write("f", LISTING)

    def test_lent_room(self):
        whole = file(b"", b"")
        for slots in (0, 1, 2, 3, 64):
            index = (ctypes.c_size_t * slots)(*[7] * slots)
            out = (ctypes.c_uint8 * (len(whole) - 1))(*[FILLED] * (len(whole) - 1))
            self.assertEqual(o.write_in(b"f", LISTING, index, out), (o.SHORT, 0, len(whole)))
            self.assertEqual((set(out), set(index) - {0}), ({FILLED}, set()))
            out = (ctypes.c_uint8 * (len(whole) + 2))(*[FILLED] * (len(whole) + 2))
            self.assertEqual(o.write_in(b"f", LISTING, index, out), (o.DONE, len(whole), 0))
            self.assertEqual(bytes(out), whole + bytes([FILLED] * 2))
            self.assertEqual(o.write_in(b"f", b"'", (ctypes.c_size_t * 1)(7), out)[:1], (o.OPEN,))


if __name__ == "__main__":
    unittest.main()
