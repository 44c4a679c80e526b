"""Asks the program optlarge as `answers --large` is asked: one run a request."""
import os
import resource
import subprocess
import tempfile

from protocol import TARGET, Large

ROOT = os.path.dirname(TARGET)
PROGRAM = os.path.join(TARGET, "bin", "optlarge")
STACK = 64 << 20  # bytes, as the front lends it
MODES = ([], ["--strict"], ["--joined"], ["--strict", "--joined"])
FORMS = ("OL", "OM")


def raise_stack():
    resource.setrlimit(resource.RLIMIT_STACK, (STACK, resource.getrlimit(resource.RLIMIT_STACK)[1]))


def command(which, mode, words=(), program=PROGRAM):
    """The program's words for all passes (0) or one, in a mode."""
    return [os.path.join(ROOT, "tools/run-built"), program, *MODES[mode], *(["--pass", str(which)] if which else []), *words]


def ask(words, text):
    """What the program wrote, and what it said."""
    ran = subprocess.run(words, input=text, stdout=subprocess.PIPE, stderr=subprocess.PIPE, preexec_fn=raise_stack)
    if ran.returncode:
        return None, b""
    return ran.stdout, ran.stderr


def answer(request, records, program=PROGRAM):
    """The answer to a request; `records` is the path of a file for the records. None where the program failed."""
    which, mode, form, _, _, lent, _ = Large.HEAD.unpack_from(request)
    lent = min(lent, Large.MOST_RECORDS)
    if mode >= len(MODES):
        return Large.answer_of(12, 0, b"", b"", lent)
    out, said = ask(command(which, mode, ["--form", FORMS[form], "--origins", records], program), Large.text(request))
    if out is None:
        return None
    if said.startswith(b"optlarge: refused "):
        number, place = out.split()[1:]
        return Large.answer_of(int(number), int(place), b"", b"", lent)
    if said:
        return None
    with open(records, "rb") as file:
        return Large.answer_of(0, 0, out, file.read(), lent)


def answer_all(requests, out, program=PROGRAM):
    """Answers requests into a file, up to the first on which the program fails."""
    with tempfile.TemporaryDirectory() as folder:
        for request in requests:
            told = answer(request, os.path.join(folder, "records"), program)
            if told is None:
                return 1
            out.write(told)
    return 0
