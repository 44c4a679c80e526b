"""The two protocols of README.md as bytes and as text to read, for the scripts beside this file."""
import os
import signal
import struct
import subprocess
import sys

HERE = os.path.dirname(os.path.realpath(__file__))
TARGET = os.path.join(os.path.dirname(HERE), "target")
MADE = os.path.join(TARGET, "original")
SKIP = 0xFFFFFFFF

NAMES = {
    1: "trim", 2: "trim_start", 3: "trim_end", 4: "utf8", 5: "lines", 6: "join", 7: "count_lines", 8: "crowded_line",
    9: "reg_name", 10: "phi_name", 11: "is_temp_name", 12: "parse", 13: "reads_in", 14: "replace_reg",
    15: "occurrence_context", 16: "count_ident", 17: "mentions_ident", 18: "is_simple_ident", 19: "is_ident_byte",
    20: "strip_comments", 21: "purity", 22: "strip_lexical", 23: "phi_rhs_pure", 24: "ident_words", 25: "regions",
    26: "block_ids", 27: "block_paths", 28: "inside_loop", 29: "starts_statement", 30: "is_control_header",
    31: "paren_if_needed", 32: "is_plain_ref", 33: "is_primary_expr", 34: "breaks_dependency",
    35: "call_scratch_lines", 36: "pure_expr", 37: "purity in strict mode", 38: "plain_drops", 39: "sweep_drops",
    41: "prune_dead_temps", 42: "optimize_once", 43: "prune_dead_phis", 44: "rebuild_calls", 45: "prune_decls", 46: "bind_declarators",
}


def build(*words):
    """Builds what is missing below target/original/. Where that fails, the build has said why."""
    if subprocess.run([os.path.join(HERE, "build"), *words]).returncode:
        sys.exit(2)


def take_options(text, *options):
    """Prints a script's own words where its first word asks for them, and ends; an option that it does not have is an error.
    A signal that ends the script lets it remove its temporary files."""
    for ending in (signal.SIGHUP, signal.SIGTERM):
        signal.signal(ending, lambda *_: sys.exit(2))
    if sys.argv[1:2] in (["-h"], ["--help"]):
        print(text.strip())
        sys.exit(0)
    for word in sys.argv[1:]:
        if word.startswith("-") and word not in options:
            print(f"{os.path.basename(sys.argv[0])}: no such option: {word} (see --help)", file=sys.stderr)
            sys.exit(2)


def shown(text):
    """Bytes as text to read: one line to a line, what is not plain as escapes."""
    parts = text.decode("utf-8", "surrogateescape").split("\n")
    lines = [p + "\n" for p in parts[:-1]] + parts[-1:]
    return "\n".join("    " + (ascii(l) if len(l) < 600 else ascii(l[:600]) + f".. ({len(l)})") for l in lines)


class Texts:
    """Requests for whole texts, and their answers."""

    HEAD = struct.Struct("<BBBIII")  # pass, mode, short, room, records, length; the text follows
    TOLD = struct.Struct("<BBII")  # number, memory, length, place; the result follows, then the record buffer with its length
    RECORD = struct.Struct("<2sHBH")  # mark, input line, fate, output line

    @staticmethod
    def lines_of(text):
        return text.count(b"\n") + (text[-1:] not in (b"", b"\n"))

    @staticmethod
    def records_of(text):
        """The bytes that the records of a text take."""
        return Texts.RECORD.size * Texts.lines_of(text)

    @staticmethod
    def request(which, mode, room, text, short=0):
        """A request that lends the record buffer that the text needs."""
        return Texts.HEAD.pack(which, mode, short, room, Texts.records_of(text), len(text)) + text

    @staticmethod
    def text(request):
        return request[Texts.HEAD.size :]

    @staticmethod
    def request_end(data, at):
        return at + Texts.HEAD.size + Texts.HEAD.unpack_from(data, at)[5]

    @staticmethod
    def answer_end(data, at):
        records_at = at + Texts.TOLD.size + Texts.TOLD.unpack_from(data, at)[2]
        return records_at + 4 + struct.unpack_from("<I", data, records_at)[0]

    @staticmethod
    def answer(answer):
        """Number, memory, place, the result and the record buffer."""
        number, memory, length, place = Texts.TOLD.unpack_from(answer)
        result_at = Texts.TOLD.size
        return number, memory, place, answer[result_at : result_at + length], answer[result_at + length + 4 :]

    @staticmethod
    def skipped(answer):
        return answer[0] == 255

    @staticmethod
    def sort(request, answer):
        """What requests are counted by."""
        return answer[0]

    @staticmethod
    def show_request(request):
        which, mode, short, room, records, length = Texts.HEAD.unpack_from(request)
        head = f"pass {which}, mode {mode}, short {short}, room {room}, records {records}, {length} bytes"
        return f"{head}:\n{shown(Texts.text(request))}"

    @staticmethod
    def show_answer(answer):
        number, memory, place, result, records = Texts.answer(answer)
        head = f"number {number}, memory {memory}, length {len(result)}, place {place}"
        return head + (":\n" + shown(result) if result else "") + "\n  records: " + Texts.show_records(records)

    @staticmethod
    def records(buffer):
        """The records at the front of a buffer, as far as the mark stands there: mark, input line, fate, output line."""
        found, size = [], Texts.RECORD.size
        for at in range(0, len(buffer) - size + 1, size):
            if buffer[at : at + 2] != b"OL":
                break
            found.append(Texts.RECORD.unpack_from(buffer, at))
        return found

    @staticmethod
    def show_records(buffer):
        """Input line, fate and output line of each record; then the bytes that are none."""
        found = Texts.records(buffer)
        told = ["{1}:{2},{3}".format(*each) for each in found]
        rest = buffer[len(found) * Texts.RECORD.size :]
        same = len(rest) - len(rest.lstrip(rest[:1]))
        if same:
            told.append(f"then {same} bytes {rest[0]:02x}, {rest[same:][:40].hex(' ') or 'no more'}")
        return " ".join(told) or "none"


class Large(Texts):
    """Requests for the second pair of entries, whose records may have either form, and their answers."""

    HEAD = struct.Struct("<BBBBIII")  # pass, mode, form, short, room, records, length; the text follows
    SIZES = (Texts.RECORD.size, struct.calcsize("<2sIBI"))  # of a record of each form
    MOST_LINES, MOST_ROOM = 100000, 2097152
    MOST_RECORDS = SIZES[1] * MOST_LINES + 8

    @staticmethod
    def request(which, mode, form, text):
        """A request in which nothing is too short."""
        return Large.HEAD.pack(which, mode, form, 0, Large.MOST_ROOM, Large.MOST_RECORDS, len(text)) + text

    @staticmethod
    def text(request):
        return request[Large.HEAD.size :]

    @staticmethod
    def request_end(data, at):
        return at + Large.HEAD.size + Large.HEAD.unpack_from(data, at)[6]

    @staticmethod
    def answer_of(number, place, result, records, lent):
        """An answer: the record buffer has the records in front, and behind them what was there."""
        buffer = records + b"\xa5" * (lent - len(records))
        return Large.TOLD.pack(number, 1, len(result), place) + result + struct.pack("<I", lent) + buffer

    @staticmethod
    def show_request(request):
        which, mode, form, short, room, records, length = Large.HEAD.unpack_from(request)
        head = f"pass {which}, mode {mode}, form {form}, {length} bytes"
        return f"{head}:\n{shown(Large.text(request)[:2000])}"

    @staticmethod
    def show_answer(answer):
        number, memory, place, result, records = Texts.answer(answer)
        return f"number {number}, length {len(result)}, place {place}, records {records[:22].hex(' ')}.."


class Prunings:
    """Requests to check a pruning, and their answers."""

    @staticmethod
    def request_end(data, at):
        b_at = at + 5 + struct.unpack_from("<I", data, at + 1)[0]
        return b_at + 4 + struct.unpack_from("<I", data, b_at)[0]

    @staticmethod
    def answer_end(data, at):
        return at + 6

    @staticmethod
    def skipped(answer):
        return False

    @staticmethod
    def sort(request, answer):
        return answer[0]

    @staticmethod
    def show_request(request):
        short, length = struct.unpack_from("<BI", request)
        return f"short {short}, raw:\n{shown(request[5 : 5 + length])}\n  pruned:\n{shown(request[9 + length :])}"

    @staticmethod
    def show_answer(answer):
        return "number {}, memory {}, place {}".format(*struct.unpack("<BBI", answer))


class Leaves:
    """Requests for single functions, and their answers."""

    @staticmethod
    def request(function, number, a, b):
        head = struct.pack("<BQI", function, number, len(a)) + a
        return head + struct.pack("<I", len(b)) + b

    @staticmethod
    def request_end(data, at):
        b_at = at + 13 + struct.unpack_from("<I", data, at + 9)[0]
        return b_at + 4 + struct.unpack_from("<I", data, b_at)[0]

    @staticmethod
    def answer_end(data, at):
        length = struct.unpack_from("<I", data, at)[0]
        return at + 4 + (0 if length == SKIP else length)

    @staticmethod
    def skipped(answer):
        return answer[:4] == b"\xff\xff\xff\xff"

    @staticmethod
    def sort(request, answer):
        return request[0]

    @staticmethod
    def show_request(request):
        function, number, length = struct.unpack_from("<BQI", request)
        a, b = request[13 : 13 + length], request[17 + length :]
        name = NAMES.get(function, "unknown")
        return f"function {function} {name}, number {number}, a:\n{shown(a)}\n  b:\n{shown(b)}"

    @staticmethod
    def show_answer(answer):
        return f"{len(answer) - 4} bytes: {answer[4:].hex(' ')}\n{shown(answer[4:])}"


def cut(data, end_of):
    """The requests or answers of a stream, one after the other; a cut last one is left out."""
    at = 0
    while at < len(data):
        try:
            end = end_of(data, at)
        except struct.error:
            return
        if end > len(data):
            return
        yield data[at:end]
        at = end
