"""Where lines go, by hand: reads fates.txt, and compares a program's records with it. Run by itself it writes the requests."""
import os
import re
import sys

from protocol import HERE, Texts

MODES = {"": 0, "strict": 1, "joined": 2, "strict joined": 3}
ROOM = 32768
GONE = 65535


class Case:
    """A case of the table: what it asks, and the records that the document has for it."""

    def __init__(self, words, rows):
        which, mode, self.name = re.fullmatch(r"([0-6]) ?(strict joined|strict|joined|): (.+)", words).groups()
        told = [re.fullmatch(r"([0-3]) (\d+|-) \|(.*)", row).groups() for row in rows]
        lines = "".join(line.replace("\\r", "\r") + "\n" for _, _, line in told)
        text = re.sub(r"\\\.\n$", "", lines).encode()
        self.request = Texts.request(int(which), MODES[mode], ROOM, text)
        outs = [GONE if out == "-" else int(out) for _, out, _ in told]
        self.records = b"".join(Texts.RECORD.pack(b"OL", i, int(t[0]), out) for i, (t, out) in enumerate(zip(told, outs)))


def cases():
    with open(os.path.join(HERE, "fates.txt"), encoding="utf-8") as table:
        lines = [line.rstrip("\n") for line in table if not line.startswith("#")]
    blocks = [block.split("\n") for block in "\n".join(lines).strip("\n").split("\n\n")]
    return [Case(block[0], block[1:]) for block in blocks]


def check(side, requests, answers):
    """Counts the cases in which a program's records are not the table's, and shows them; gives their number."""
    wrong, asked = 0, cases()
    for case, answer in zip(asked, answers + [None] * len(asked)):
        if answer is None or Texts.answer(answer)[0] != 0 or Texts.answer(answer)[4] != case.records:
            wrong += 1
            print(f"--- {side}: {case.name}: {Texts.show_request(case.request)}")
            print(f"  table: {Texts.show_records(case.records)}")
            print(f"  is {Texts.show_answer(answer) if answer is not None else 'no answer'}")
    print(f"{side}: {len(asked)} cases, {wrong} differ")
    return wrong


if __name__ == "__main__":
    sys.stdout.buffer.write(b"".join(case.request for case in cases()))
