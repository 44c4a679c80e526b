"""records.py [--seed S] [--count N] [--large N] [--model-only]: record files, the library beside a model.

The model is written from the requests (origin records, reading them, turning them) and shares no code with the port. Made files are
right ones of either form, and files that are cut, have other marks, swapped, doubled, left out or misnumbered records, odd fates,
fates and output lines that disagree, output lines at 65,534, 65,535 and 65,536, and two of these at once. Each is checked, read,
asked for lines, and turned into both forms, in rooms that are exact, short by one, empty and longer. Number, count, place and every
lent byte are compared. Some files have 65,535, 65,536 and 65,537 records, so that input lines stand at those numbers.

  --seed S       the first seed (1)
  --count N      how many files are made (2000)
  --large N      how many of them are large (6)
  --model-only   tries the model alone, on files whose answers were worked out by hand

It wants the shared library, in the file that OPTRECORDS_LIBRARY names. Status 0: nothing differs; 1: something does; 2: bad usage
or no library."""
import ctypes
import os
import random
import struct
import sys

sys.dont_write_bytecode = True
FORMS = {b"OL": ("<2sHBH", 65535), b"OM": ("<2sIBI", 4294967295)}
EDGES = (0, 1, 2, 3, 5, 254, 255, 256, 65533, 65534, 65535, 65536, 65537, 16777216, 4294967293, 4294967294, 4294967295)
FILLED = 0xA5
SPARE = 3
ASKED = ("check", "records", "lines", "to_ol", "to_om")

# ---- the model


def form_of(data):
    return b"OM" if data[1:2] == b"M" else b"OL"


def model_read(data):
    """The records of a file as pairs of fate and output line (None where it is gone), or the refusal."""
    mark = form_of(data)
    layout, gone = FORMS[mark]
    size, said = struct.calcsize(layout), []
    for at in range(0, len(data), size):
        number = at // size
        if len(data) - at < size:
            return 1, number
        has, line, fate, out = struct.unpack_from(layout, data, at)
        if has != mark:
            return 2, number
        if line != number:
            return 3, number
        if fate not in (0, 1, 2, 3):
            return 4, number
        if (fate == 3) is not (out == gone):
            return 5, number
        said.append((fate, None if fate == 3 else out))
    return said


def written(mark, said):
    """The file of some records."""
    layout, gone = FORMS[mark]
    return b"".join(struct.pack(layout, mark, line, fate, gone if out is None else out) for line, (fate, out) in enumerate(said))


def model_turn(data, mark, room):
    """The number, the place and the file in another form."""
    said = model_read(data)
    if isinstance(said, tuple):
        return said + (None,)
    if mark == b"OL":
        for line, (_, out) in enumerate(said):
            if line > 65535 or (out is not None and (out > 65535 or out == 65535)):
                return 6, line, None
    need = len(said) * struct.calcsize(FORMS[mark][0])
    if need > room:
        return 7, need, None
    return 0, 0, written(mark, said)


def model_lines(data, asked, room):
    """The number, the place and the raw lines behind an output line."""
    said = model_read(data)
    if isinstance(said, tuple):
        return said + (None,)
    found = [line for line, (_, out) in enumerate(said) if out is not None and out == asked]
    if len(found) > room:
        return 6, len(found), None
    return 0, 0, found


def model_holds():
    """The model on files that were worked out by hand."""
    old = b"OL\0\0\0\0\0OL\1\0\2\1\0OL\2\0\1\1\0OL\3\0\3\xff\xff"
    new = b"OM\0\0\0\0\0\0\0\0\0OM\1\0\0\0\2\1\0\0\0OM\2\0\0\0\1\1\0\0\0OM\3\0\0\0\3\xff\xff\xff\xff"
    edge = b"OM\0\0\0\0\1%s\0\0"
    cases = [
        (model_read(old), [(0, 0), (2, 1), (1, 1), (3, None)]), (model_read(new), model_read(old)), (model_read(b""), []),
        (model_turn(old, b"OM", 44), (0, 0, new)), (model_turn(new, b"OL", 28), (0, 0, old)), (model_turn(old, b"OM", 43), (7, 44, None)),
        (model_lines(old, 1, 2), (0, 0, [1, 2])), (model_lines(new, 1, 1), (6, 2, None)), (model_lines(old, 65535, 0), (0, 0, [])),
        (model_read(b"OM"), (1, 0)), (model_read(b"OL\0\0\0\0\0OM\1\0\2\1\0"), (2, 1)), (model_read(b"OL\1\0\4\0\0"), (3, 0)),
        (model_read(b"OL\0\0\4\xff\xff"), (4, 0)), (model_read(b"OL\0\0\3\0\0"), (5, 0)), (model_read(b"OL\0\0\0\xff\xff"), (5, 0)),
        (model_turn(edge % b"\xff\xff", b"OL", 7), (6, 0, None)), (model_turn(edge % b"\xfe\xff", b"OL", 7), (0, 0, b"OL\0\0\1\xfe\xff")),
    ]
    return [(got, wanted) for got, wanted in cases if got != wanted]


# ---- made files


def made_said(rng, mark, count):
    gone = FORMS[mark][1]
    fits = [n for n in EDGES if n < gone]
    near = rng.random() < 0.6
    said = []
    for line in range(count):
        fate = rng.choice((0, 0, 1, 2, 3))
        out = rng.randrange(count + 1) if near else rng.choice(fits)
        said.append((fate, None if fate == 3 else out))
    return said


def damaged(rng, mark, data):
    """One damage of a file."""
    layout, gone = FORMS[mark]
    size = struct.calcsize(layout)
    width = (size - 3) // 2
    count = len(data) // size
    kind = rng.randrange(12)
    parts = [data[i * size:(i + 1) * size] for i in range(count)]
    rest = data[count * size:]
    if kind == 0 or not parts:
        return data[:rng.randrange(len(data) + 1)]
    at, other = rng.randrange(count), rng.randrange(count)
    part = bytearray(parts[at])
    if kind == 1:
        part[rng.randrange(2)] = rng.choice(b"OLMomlX\0\xff")
    elif kind == 2:
        parts[at], parts[other] = parts[other], parts[at]
        return b"".join(parts) + rest
    elif kind == 3:
        parts.insert(at, parts[other])
        return b"".join(parts) + rest
    elif kind == 4:
        del parts[at]
        return b"".join(parts) + rest
    elif kind == 5:
        part[2:2 + width] = rng.choice((at + 1, at + 2, 0, rng.choice(EDGES) & gone, gone)).to_bytes(width, "little")[:width]
    elif kind == 6:
        part[2 + width] = rng.choice((3, 4, 5, 127, 128, 254, 255))
    elif kind == 7:
        part[2 + width] = rng.randrange(4)
        part[3 + width:] = gone.to_bytes(width, "little")
    elif kind == 8:
        part[2 + width] = 3
        part[3 + width:] = rng.choice((0, gone - 1, rng.choice(EDGES) & gone)).to_bytes(width, "little")
    elif kind == 9:
        part[rng.randrange(size)] ^= 1 << rng.randrange(8)
    elif kind == 10:
        turned = b"OL" if mark == b"OM" else b"OM"
        part = bytearray(written(turned, [(0, 0)]))
    else:
        return data + bytes(rng.randrange(256) for _ in range(rng.randrange(1, 12)))
    parts[at] = bytes(part)
    return b"".join(parts) + rest


def made_file(rng):
    mark = rng.choice((b"OL", b"OM"))
    data = written(mark, made_said(rng, mark, rng.choice((0, 1, 1, 2, 3, 4, 6, 9, 14))))
    for _ in range(rng.choice((0, 0, 1, 1, 1, 2))):
        data = damaged(rng, mark, data)
    return data


def large_file(rng, turn):
    """A file whose last input lines are about 65,536; damaged at its end, or whole."""
    count = (65534, 65535, 65536, 65537, 65540)[turn % 5]
    mark = b"OM" if turn % 2 or count > 65536 else b"OL"
    said = [(0, 7)] * (count - 3) + made_said(rng, mark, 3)
    data = written(mark, said)
    if rng.random() < 0.3:
        size = struct.calcsize(FORMS[mark][0])
        data = data[:-2 * size] + damaged(rng, mark, data[-2 * size:])
    return data


# ---- beside the library


def rooms(rng, need):
    """Some lengths of room, for what needs so much."""
    return {need, max(need - 1, 0), 0, need + SPARE} if rng.random() < 0.5 else {rng.choice((need, max(need - 1, 0), need + SPARE))}


class Library:
    def __init__(self):
        sys.path.insert(0, os.path.join(os.path.dirname(os.path.dirname(os.path.abspath(__file__))), "bindings", "python"))
        import optrecords
        self.module = optrecords

    def lent(self, kind, name, data, room, *words):
        """A call in a filled buffer: the answer, and what stands in the buffer, some spare room behind it included."""
        buffer = (kind * (room + SPARE))()
        ctypes.memset(buffer, FILLED, ctypes.sizeof(buffer))
        part = (kind * room).from_buffer(buffer)
        number, count, place = self.module.call(name, data, *words, part)
        return number, count, place, bytes(buffer)


def as_should(kind, room, wanted, found):
    """The answer and the buffer that the model asks for; `found` as bytes."""
    number, place, _ = wanted
    size = ctypes.sizeof(kind)
    filled = bytes([FILLED]) * (size * (room + SPARE))
    if number:
        return number, 0, place, filled
    return 0, len(found) // size, 0, found + filled[len(found):]


def compare_file(library, rng, data, tell):
    said = model_read(data)
    wrong = isinstance(said, tuple)
    got = library.module.call("check", data)
    tell("check", got, (said[0], 0, said[1]) if wrong else (0, len(said), 0))
    if not wrong:
        few = range(len(said)) if len(said) < 100 else range(len(said) - 50, len(said))
        read = [library.module.record(data, i) for i in few]
        tell("records", read, [said[i] for i in few])
        tell("records", library.module.record(data, len(said) + rng.randrange(3)), (3, None))
    outs = [] if wrong else [out for _, out in said[-20:] if out is not None]
    for asked in {rng.choice(outs + [0]), rng.choice(EDGES), rng.choice((65535, 4294967295, 2**64 - 1))}:
        need = model_lines(data, asked, len(data))
        for room in rooms(rng, len(need[2] or ())):
            wanted = model_lines(data, asked, room)
            found = b"".join(line.to_bytes(8, "little") for line in wanted[2] or ())
            tell("lines", library.lent(ctypes.c_size_t, "lines", data, room, asked), as_should(ctypes.c_size_t, room, wanted, found))
    for name, mark in (("to_ol", b"OL"), ("to_om", b"OM")):
        for room in rooms(rng, len(model_turn(data, mark, 2 * len(data))[2] or b"")):
            wanted = model_turn(data, mark, room)
            tell(name, library.lent(ctypes.c_uint8, name, data, room), as_should(ctypes.c_uint8, room, wanted, wanted[2]))


def compare(library, seed, count, large):
    counts, numbers, differ = dict.fromkeys(ASKED, 0), {}, 0
    for turn in range(count):
        rng = random.Random("%d %d" % (seed, turn))
        data = large_file(rng, turn) if turn < large else made_file(rng)

        def tell(what, got, wanted):
            nonlocal differ
            counts[what] += 1
            if what != "records":
                numbers[what, wanted[0]] = numbers.get((what, wanted[0]), 0) + 1
            if got != wanted:
                differ += 1
                if differ <= 10:
                    print("records.py: file %d of seed %d, %s:\n  %r\n  library %.300r\n  model   %.300r" % (turn, seed, what, data[:200], got, wanted))
        compare_file(library, rng, data, tell)
    for what in ASKED:
        told = ", ".join("%d: %d" % (n, numbers[key, n]) for key, n in sorted(numbers) if key == what)
        print("%-8s %8d answers%s" % (what, counts[what], "; by number " + told if told else ""))
    print("records.py: seed %d, %d files, %d large; %d answers differ" % (seed, count, min(large, count), differ))
    return differ


def main():
    words = {"--seed": 1, "--count": 2000, "--large": 6}
    args = sys.argv[1:]
    if args in (["--help"], ["-h"]):
        print(__doc__)
        return 0
    wrong = model_holds()
    if wrong:
        print("records.py: the model is wrong: %r" % (wrong,))
        return 1
    if args == ["--model-only"]:
        print("records.py: the model answers as worked out by hand")
        return 0
    while len(args) > 1 and args[0] in words and args[1].isdigit():
        words[args[0]] = int(args[1])
        args = args[2:]
    if args:
        print("records.py: no such word: %s (see --help)" % args[0], file=sys.stderr)
        return 2
    try:
        library = Library()
    except ImportError as why:
        print("records.py: %s" % why, file=sys.stderr)
        return 2
    return 1 if compare(library, words["--seed"], words["--count"], words["--large"]) else 0


if __name__ == "__main__":
    sys.exit(main())
