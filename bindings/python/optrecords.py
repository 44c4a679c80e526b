"""Reads origin records and turns them from one form into the other: a module over the shared
library that include/optrecords.h declares.

    import optrecords
    new = optrecords.to_om(old)            # bytes of either form to bytes of the form OM
    old = optrecords.to_ol(new)
    raw = optrecords.lines(records, 3)     # the raw lines behind tidy line 3, from 0
    all = optrecords.read(records)         # a list of (fate, tidy line), the line None for gone

All raise Refused where the library refuses. `call` works in lent buffers and answers with numbers.
Threads may call at once. The library is for x86-64 Linux. It is the file OPTRECORDS_LIBRARY where
that is set, else the one that `make records` writes in the repository.
"""
import ctypes
import os
import platform
import sys

# The fates and the numbers of include/optrecords.h.
EQUAL, CHANGED, INSIDE, GONE = range(4)
(DONE, CUT, WRONG_MARK, OUT_OF_ORDER, UNKNOWN_FATE, DISAGREE, UNFIT, SHORT) = range(8)
NO_ROOM = 6  # of `lines`, where UNFIT is of `to_ol`

_WORDS = {
    CUT: "the file ends within record {place}, counted from 0",
    WRONG_MARK: "record {place}, counted from 0, has another mark",
    OUT_OF_ORDER: "record {place}, counted from 0, is out of order",
    UNKNOWN_FATE: "record {place}, counted from 0, has an unknown fate",
    DISAGREE: "fate and output line of record {place}, counted from 0, disagree",
    UNFIT: "record {place}, counted from 0, does not fit into the form OL",
    SHORT: "the result needs {place} bytes of room",
}
_UNKNOWN = "refused with number {number} and place {place}, unknown to this module"
_SONAME = "liboptrecords.so.1"
_LARGEST = 2 ** (8 * ctypes.sizeof(ctypes.c_size_t)) - 1


class Refused(Exception):
    """The library gave no result: its number and place (include/optrecords.h), and words."""

    def __init__(self, number, place):
        self.number = number
        self.place = place
        self.words = _WORDS.get(number, _UNKNOWN).format(number=number, place=place)
        super().__init__(number, place)

    def __str__(self):
        return self.words


def _path():
    """The library's file, or its bare name where the system is to find it."""
    given = os.environ.get("OPTRECORDS_LIBRARY")
    if given:
        return given
    here = os.path.dirname(os.path.abspath(__file__))
    built = os.path.normpath(os.path.join(here, "..", "..", "target", "lib", _SONAME))
    return built if os.path.exists(built) else _SONAME


def _load():
    machine = platform.machine()
    if not sys.platform.startswith("linux") or machine != "x86_64" or sys.maxsize < 2**32:
        raise ImportError("optrecords: the library is for x86-64 Linux, and this Python is for %s %s"
                          % (machine, sys.platform))
    path = _path()
    file, number = [ctypes.c_char_p, ctypes.c_size_t], ctypes.c_size_t
    buffer, stored = [ctypes.c_void_p, ctypes.c_size_t], ctypes.POINTER(ctypes.c_size_t)
    forms = {"check": file + [stored, stored], "record": file + [number, stored],
             "lines": file + [number] + buffer + [stored, stored],
             "to_ol": file + buffer + [stored, stored], "to_om": file + buffer + [stored, stored]}
    entries = {}
    try:
        library = ctypes.CDLL(path)
        for name, words in forms.items():
            entries[name] = getattr(library, "optrecords_" + name)
            entries[name].argtypes, entries[name].restype = words, ctypes.c_uint8
    except (OSError, AttributeError) as why:
        raise ImportError("optrecords: cannot load %s (%s): run `make records` in the repository, or "
                          "set OPTRECORDS_LIBRARY to the file" % (path, why)) from why
    return entries


_entries = _load()


def call(name, file, *lent):
    """Calls `check`, `lines` (a number, a room), `to_ol` or `to_om` (a buffer) of the library.

    A room is a ctypes array of c_size_t, a buffer one of c_uint8. The answer is a tuple: the number
    of the refusal or 0, how much there is, and the place.
    """
    if not isinstance(file, bytes):
        raise TypeError("optrecords: the file must be bytes, not %s" % type(file).__name__)
    words = [part for each in lent for part in ((each,) if isinstance(each, int) else (each, len(each)))]
    count, place = ctypes.c_size_t(), ctypes.c_size_t()
    number = _entries[name](file, len(file), *words, ctypes.byref(count), ctypes.byref(place))
    return number, count.value, place.value


def _taken(answer):
    number, count, place = answer
    if number != DONE:
        raise Refused(number, place)
    return count


def check(file):
    """Checks a file: how many records it has."""
    return _taken(call("check", file))


def record(file, i):
    """What record i says, of a file that `check` takes: its fate, and the output line or None."""
    line = ctypes.c_size_t()
    fate = _entries["record"](file, len(file), min(max(i, 0), _LARGEST), ctypes.byref(line))
    return fate, None if fate == GONE else line.value


def read(file):
    """What each record says: its fate, and the output line or None."""
    return [record(file, i) for i in range(check(file))]


def lines(file, n):
    """The raw lines behind output line n, ascending; both count from 0."""
    room = (ctypes.c_size_t * check(file))()
    count = _taken(call("lines", file, min(max(n, 0), _LARGEST), room))
    return room[:count]


def _turned(name, file):
    out = (ctypes.c_uint8 * (2 * len(file)))()
    return ctypes.string_at(out, _taken(call(name, file, out)))


def to_ol(file):
    """The same records in the form OL."""
    return _turned("to_ol", file)


def to_om(file):
    """The same records in the form OM."""
    return _turned("to_om", file)
