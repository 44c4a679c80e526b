"""The strings of a listing as a PO file, and back: a module over the shared library that
include/optpo.h declares.

    import optpo
    file = optpo.write(b"f.txt", listing)   # bytes of a PO file
    pairs = optpo.read(file)                # [(literal, translation), ..]

Both raise Refused where the library refuses. `write_in` and `read_in` work in lent buffers and
answer with numbers. Threads may call at once, each with buffers of its own. The library is for
x86-64 Linux. It is the file OPTPO_LIBRARY where that is set, else the one that `make lib-po` writes
in the repository.
"""
import ctypes
import os
import platform
import sys

# The numbers of include/optpo.h.
(DONE, BAD_NAME, NOT_UTF8, OTHER_ESCAPE, OPEN, SHORT, BAD_LINE) = range(7)

_WORDS = {
    BAD_NAME: "the name is empty, is not UTF-8 or holds white space: see byte {place}, from 0",
    NOT_UTF8: "the listing is not UTF-8: see byte {place}, from 0",
    OTHER_ESCAPE: "a literal has another escape: see byte {place}, from 0",
    OPEN: "a literal is not closed on its line: see byte {place}, from 0",
    SHORT: "the output needs {place} bytes of room",
    BAD_LINE: "line {line} is missing, or is not of the form",
}
_UNKNOWN = "refused with number {number} and place {place}, unknown to this module"
_SONAME = "liboptpo.so.1"
_SIZE = 8  # bytes of a length in what optpo_read gives


class Refused(Exception):
    """The library gave no result: its number and place (include/optpo.h), and words."""

    def __init__(self, number, place):
        form = _WORDS.get(number, _UNKNOWN)
        self.number = number
        self.place = place
        self.words = form.format(number=number, place=place, line=place + 1)
        super().__init__(number, place)

    def __str__(self):
        return self.words


def _path():
    given = os.environ.get("OPTPO_LIBRARY")
    if given:
        return given
    here = os.path.dirname(os.path.abspath(__file__))
    return os.path.normpath(os.path.join(here, "..", "..", "target", "lib", _SONAME))


def _load():
    machine = platform.machine()
    if not sys.platform.startswith("linux") or machine != "x86_64" or sys.maxsize < 2**32:
        raise ImportError("optpo: the library is for x86-64 Linux, and this Python is for %s %s"
                          % (machine, sys.platform))
    path = _path()
    try:
        library = ctypes.CDLL(path)
        entries = library.optpo_write, library.optpo_read
    except (OSError, AttributeError) as why:
        raise ImportError("optpo: cannot load %s (%s): run `make lib-po` in the repository, or set "
                          "OPTPO_LIBRARY to the file" % (path, why)) from why
    text = [ctypes.c_char_p, ctypes.c_size_t]
    room = [ctypes.c_void_p, ctypes.c_size_t]
    places = [ctypes.POINTER(ctypes.c_size_t)] * 2
    for entry, texts in zip(entries, (2, 1)):
        entry.argtypes = texts * text + 2 * room + places
        entry.restype = ctypes.c_uint8
    return entries


_write, _read = _load()


def _call(entry, texts, index, out):
    """The number, the length and the place of a call."""
    for text in texts:
        if not isinstance(text, bytes):
            raise TypeError("optpo: texts are bytes, not %s" % type(text).__name__)
    length, place = ctypes.c_size_t(), ctypes.c_size_t()
    lent = [part for text in texts for part in (text, len(text))]
    number = entry(*lent, index, len(index), out, len(out), ctypes.byref(length), ctypes.byref(place))
    return number, length.value, place.value


def write_in(name, listing, index, out):
    """Writes in lent room: arrays of ctypes.c_size_t and of ctypes.c_uint8. (number, length, place)."""
    return _call(_write, (name, listing), index, out)


def read_in(file, index, out):
    """Reads in lent room, as write_in."""
    return _call(_read, (file,), index, out)


def _numbers(count):
    return (ctypes.c_size_t * count)()


def _bytes(count):
    return (ctypes.c_uint8 * count)()


def write(name, listing):
    """The literals of a listing as a PO file, with this name in its references."""
    index = _numbers(len(listing) // 2)
    number, length, place = write_in(name, listing, index, _bytes(0))
    if number != SHORT:
        raise Refused(number, place)
    out = _bytes(place)
    number, length, place = write_in(name, listing, index, out)
    if number != DONE:
        raise Refused(number, place)
    return bytes(out[:length])


def _unpack(given, at):
    """The text behind the length at a place, and the place after it."""
    start = at + _SIZE
    end = start + int.from_bytes(given[at:start], "little")
    return given[start:end], end


def read(file):
    """Each literal of a PO file and its translation, in the order of the file."""
    out = _bytes(len(file))  # a line gives no more bytes than it has
    number, length, place = read_in(file, _numbers(len(file) // 4), out)
    if number != DONE:
        raise Refused(number, place)
    given, at, pairs = bytes(out[:length]), 0, []
    while at < length:
        literal, at = _unpack(given, at)
        translation, at = _unpack(given, at)
        pairs.append((literal, translation))
    return pairs
