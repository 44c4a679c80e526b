"""Tidies register listings: a module over the shared library that include/optlines.h declares.

    import optlines
    tidy = optlines.optimize(text)      # all passes over bytes
    tidy = optlines.run_pass(5, text)   # one pass, 1 to 6
    tidy = optlines.optimize(text, optlines.STRICT)     # in strict mode; JOINED, STRICT_JOINED
    tidy.text       # the result, bytes
    tidy.records    # where each line went: a list of Record(line, fate, output)
    tidy.origins    # the same records as bytes, a record file of the form OL

Larger texts, with records in the form that is asked for:

    tidy = optlines.optimize_large(text)                # up to 1,048,576 bytes, records in OM
    tidy = optlines.run_pass_large(5, text, form=optlines.OL)
    work = optlines.LargeWork()                         # 25 MB, made once for many texts:
    tidy = optlines.optimize_large(text, work=work)

All raise Refused where the library refuses. `call` and `call_large` work in lent buffers, a Work or
a LargeWork, a result buffer and a record buffer, and answer with numbers. Threads may call at once,
each with buffers of its own (the others bring theirs); a call needs STACK bytes of stack. The
library is for x86-64 Linux. It is the file OPTLINES_LIBRARY where that is set, else the one that
`make lib` writes in the repository, else the installed one.
"""
import collections
import ctypes
import os
import platform
import struct
import sys

BYTES = 32769  # the stated size of each of the work buffers a to e
BLOCKS = 16384  # the stated size of the work buffer u, in numbers of 32 bits
TEXT = 16384  # the most bytes of a text
LINES = 1024  # the most lines of a text
BRACKETS = 64  # the most bytes '[' of a line
RECORD = 7  # the bytes of a record
RECORDS = RECORD * LINES  # the bytes of a record buffer that is long enough for every text
NO_LINE = 65535  # the line of the result that a record of a gone line has
STACK = 139264  # bytes of stack that are enough for a call, as far as it was measured

# The forms of records: 2 bytes for each line, or 4.
(OL, OM) = range(2)

# For larger texts.
LARGE_TEXT = 1048576  # the most bytes of a text
LARGE_LINES = 100000  # the most lines of a text
OL_LINES = 65535  # the most lines of a text where its records are asked for in the form OL
LARGE_BYTES = 2097153  # the stated size of each of the work buffers a to e
LARGE_BLOCKS = 1048576  # that of u, in numbers of 32 bits
LARGE_NOTES = 200000  # that of each of v, w and x, in numbers of 32 bits
LARGE_OWNERS = 131071  # that of own, in numbers of 64 bits
LARGE_PLACES = 262143  # that of each of f and g, in bytes, and of r and t, in numbers of 64 bits
LARGE_RECORD = 11  # the bytes of a record of the form OM
LARGE_RECORDS = LARGE_RECORD * LARGE_LINES  # of a record buffer that is long enough for every text
LARGE_NO_LINE = 4294967295  # the line of the result that a record of a gone line has in OM

# The modes: how passes 1, 2 and 3 judge a value, and how 4 and 6 read the lines around a statement.
(PLAIN, STRICT, JOINED, STRICT_JOINED) = range(4)

# The numbers of include/optlines.h.
(DONE, BAD_PASS, TOO_LONG, SHORT_WORK, NOT_UTF8, TOO_MANY_LINES, CROWDED, SHORT_RESULT,
 SHORT_RECORDS, CUT, OVERLONG, OUTSIDE, BAD_MODE, WIDE_LINES) = range(14)

# The fates: kept with equal bytes, kept with other bytes, its value in another line, gone.
EQUAL, CHANGED, INSIDE, GONE = range(4)

_WORDS = {
    BAD_PASS: "there is no such pass: they are 1 to 6",
    TOO_LONG: "the text is longer than {place} bytes",
    SHORT_WORK: "a work buffer is shorter than its stated size",
    NOT_UTF8: "the text is not UTF-8: see byte {place}, counted from 0",
    TOO_MANY_LINES: "the text has more than {place} lines",
    CROWDED: "line {line} has more than %d bytes '['" % BRACKETS,
    SHORT_RESULT: "the result needs {place} bytes of room",
    SHORT_RECORDS: "the records need {place} bytes of room",
    CUT: "the text was cut: it ends within the character at byte {place}, counted from 0",
    OVERLONG: "the text has an overlong form: see byte {place}, counted from 0",
    OUTSIDE: "the text has a surrogate or a value above U+10FFFF: see byte {place}, counted from 0",
    BAD_MODE: "there is no such mode: they are 0 to 3",
    WIDE_LINES: "the form OL has numbers for {place} lines: ask for OM",
}
_UNKNOWN = "refused with number {number} and place {place}, unknown to this module"
_SONAME = "liboptlines.so.3"
# Of each form: the mark, the line, its fate and the line of the result; and that of a gone line.
_FORMS = (struct.Struct("<2sHBH"), NO_LINE), (struct.Struct("<2sLBL"), LARGE_NO_LINE)
_LARGEST = 2 ** (8 * ctypes.sizeof(ctypes.c_size_t)) - 1


# Where a line of the text went: the line, its fate, and the line of the result that it stands as or
# that finally holds its value, None where it is gone. Lines count from 0.
Record = collections.namedtuple("Record", "line fate output")

# What a call gives: the text, the records, and the same records as bytes.
Tidy = collections.namedtuple("Tidy", "text records origins")


class Refused(Exception):
    """The library gave no result: its number and place (include/optlines.h), and words."""

    def __init__(self, number, place):
        form = _WORDS.get(number, _UNKNOWN)
        self.number = number
        self.place = place
        self.words = form.format(number=number, place=place, line=place + 1)
        super().__init__(number, place)

    def __str__(self):
        return self.words


def _path():
    """The library's file, or its bare name where the system is to find it."""
    given = os.environ.get("OPTLINES_LIBRARY")
    if given:
        return given
    here = os.path.dirname(os.path.abspath(__file__))
    built = os.path.normpath(os.path.join(here, "..", "..", "target", "lib", _SONAME))
    return built if os.path.exists(built) else _SONAME


def _check_machine():
    machine = platform.machine()
    if not sys.platform.startswith("linux") or machine != "x86_64" or sys.maxsize < 2**32:
        raise ImportError("optlines: the library is for x86-64 Linux, and this Python is for %s %s"
                          % (machine, sys.platform))


def _load():
    _check_machine()
    path = _path()
    try:
        library = ctypes.CDLL(path)
        entries = (library.optlines_optimize, library.optlines_run_pass,
                   library.optlines_optimize_large, library.optlines_run_pass_large)
    except (OSError, AttributeError) as why:
        raise ImportError("optlines: cannot load %s (%s): run `make lib` in the repository, or set "
                          "OPTLINES_LIBRARY to the file" % (path, why)) from why
    buffer = [ctypes.c_void_p, ctypes.c_size_t]
    places = [ctypes.POINTER(ctypes.c_size_t)] * 2
    for entry, numbers, buffers in zip(entries, (1, 2, 2, 3), (8, 8, 20, 20)):
        # pass, mode, form; text, the work buffers, out, orig; where length and place are stored
        entry.argtypes = ([ctypes.c_size_t] * numbers + [ctypes.c_char_p, ctypes.c_size_t]
                          + buffers * buffer + places)
        entry.restype = ctypes.c_uint8
    return entries


_optimize, _run_pass, _optimize_large, _run_pass_large = _load()


def _parts(buffers):
    """Each buffer and its length, in the order of the library's arguments."""
    return [part for each in buffers for part in (each, len(each))]


class Work:
    """Lent work buffers: `bytes`, five ctypes arrays of c_uint8, and `blocks`, one of c_uint32.

    Fresh ones have the stated sizes. What stands in them before a call does not matter.
    """

    def __init__(self):
        self.bytes = [(ctypes.c_uint8 * BYTES)() for _ in range(5)]
        self.blocks = (ctypes.c_uint32 * BLOCKS)()

    def lent(self):
        """Each buffer and its length, in the order of the library's arguments."""
        return _parts((*self.bytes, self.blocks))


class LargeWork:
    """Lent work buffers for larger texts, `buffers`: eighteen ctypes arrays, in the order of the
    library's arguments.

    Fresh ones have the stated sizes. What stands in them before a call does not matter.
    """

    _BYTE, _WORD, _SIZE = ctypes.c_uint8, ctypes.c_uint32, ctypes.c_size_t
    SIZES = ([(_BYTE, LARGE_BYTES)] * 5 + [(_BYTE, LARGE_PLACES)] * 2  # a to e; f, g
             + [(_BYTE, LARGE_LINES), (_WORD, LARGE_BLOCKS)]  # h; u
             + [(_WORD, LARGE_NOTES)] * 3  # v, w, x
             + [(_SIZE, LARGE_LINES)] * 2 + [(_SIZE, LARGE_PLACES)] * 2  # p, q; r, t
             + [(_SIZE, LARGE_OWNERS), (_SIZE, LARGE_LINES)])  # own; table

    def __init__(self):
        self.buffers = [(kind * size)() for kind, size in self.SIZES]

    def lent(self):
        """Each buffer and its length, in the order of the library's arguments."""
        return _parts(self.buffers)


def _size(number):
    """A number as the library takes it: none wraps into a pass or a mode."""
    return number if 0 <= number <= _LARGEST else _LARGEST


def record_bytes(text, form=OL):
    """How many bytes the records of a text take: RECORD or LARGE_RECORD for each line."""
    lines = text.count(b"\n") + (text[-1:] not in (b"", b"\n"))
    return lines * (RECORD if form == OL else LARGE_RECORD)


def read_records(origins):
    """What the bytes of records say, as a call wrote them in either form: a list of Record."""
    layout, gone = _FORMS[origins[:2] == b"OM"]
    return [Record(line, fate, None if output == gone else output)
            for _, line, fate, output in layout.iter_unpack(origins)]


def _ask(entry, numbers, text, work, out, orig):
    """Calls an entry: its answer, the length and the place."""
    if not isinstance(text, bytes):
        raise TypeError("optlines: the text must be bytes, not %s" % type(text).__name__)
    length, place = ctypes.c_size_t(), ctypes.c_size_t()
    lent = [text, len(text), *work.lent(), *_parts((out, orig))]
    answer = entry(*map(_size, numbers), *lent, ctypes.byref(length), ctypes.byref(place))
    return answer, length.value, place.value


def call(number, text, work, out, orig, mode=PLAIN):
    """Runs all passes (number 0) or one, 1 to 6, over bytes in lent buffers.

    `work` is a Work, `out` and `orig` are ctypes arrays of c_uint8. The answer is a tuple: the
    number of the refusal or 0, how many bytes of `out` are the result, and the place. After 0 the
    first record_bytes(text) bytes of `orig` are the records.
    """
    if number == 0:
        return _ask(_optimize, [mode], text, work, out, orig)
    return _ask(_run_pass, [number, mode], text, work, out, orig)


def call_large(number, text, work, out, orig, mode=PLAIN, form=OM):
    """The same for larger texts: `work` is a LargeWork, and the records are of a form.

    After 0 the first record_bytes(text, form) bytes of `orig` are the records.
    """
    if number == 0:
        return _ask(_optimize_large, [mode, form], text, work, out, orig)
    return _ask(_run_pass_large, [number, mode, form], text, work, out, orig)


def _tidy(text, most, form, ask):
    """Lends a result buffer and a record buffer that are long enough: what the call gives."""
    out = (ctypes.c_uint8 * (2 * min(len(text), most)))()
    orig = (ctypes.c_uint8 * (RECORDS if most == TEXT else LARGE_RECORDS))()
    answer, length, place = ask(out, orig)
    if answer != DONE:
        raise Refused(answer, place)
    origins = ctypes.string_at(orig, record_bytes(text, form))
    return Tidy(ctypes.string_at(out, length), read_records(origins), origins)


def _result(number, text, mode):
    return _tidy(text, TEXT, OL, lambda out, orig: call(number, text, Work(), out, orig, mode))


def _large_result(number, text, mode, form, work):
    lent = LargeWork() if work is None else work
    return _tidy(text, LARGE_TEXT, form,
                 lambda out, orig: call_large(number, text, lent, out, orig, mode, form))


def optimize(text, mode=PLAIN):
    """Runs all passes over bytes: a Tidy, with the tidy text and where each line went."""
    return _result(0, text, mode)


def run_pass(number, text, mode=PLAIN):
    """Runs one pass, 1 to 6, over bytes: a Tidy, with the text that it gives."""
    if number == 0:
        raise Refused(BAD_PASS, 0)
    return _result(number, text, mode)


def optimize_large(text, mode=PLAIN, form=OM, work=None):
    """As optimize, for a larger text; `work` is a LargeWork, made anew where none is lent."""
    return _large_result(0, text, mode, form, work)


def run_pass_large(number, text, mode=PLAIN, form=OM, work=None):
    """As run_pass, for a larger text; `work` is a LargeWork, made anew where none is lent."""
    if number == 0:
        raise Refused(BAD_PASS, 0)
    return _large_result(number, text, mode, form, work)
