"""The law of cuts, asked of one program's answers: what it says of a whole text beside what it says of the two parts."""
from protocol import Texts

STANDS = (0, 1)  # the fates of a line that is an output line
GONE = 65535
SHOWN = 3


def told(answer):
    """The lines of a result before they were joined, and the records: input line, fate, output line. Nothing where it is refused."""
    number, _, _, result, buffer = Texts.answer(answer)
    if number:
        return None
    records = [each[1:] for each in Texts.records(buffer)]
    count = sum(1 for _, fate, _ in records if fate in STANDS)
    return result.split(b"\n")[:count], records


def broken(answers):
    """What the answers for a whole, its upper part and its tail break of the law; nothing where they keep it, or one is refused."""
    three = [told(answer) for answer in answers]
    if None in three:
        return None
    (whole_lines, whole), (upper_lines, upper), (tail_lines, tail) = three
    if whole_lines != upper_lines + tail_lines:
        return "the lines are not those of the upper part and those of the tail"
    shifted = [(line + len(upper), fate, out if out == GONE else out + len(upper_lines)) for line, fate, out in tail]
    if whole != upper + shifted:
        return "the records are not those of the upper part and those of the tail, shifted"
    return None


def check(side, requests, answers):
    """Counts the cuts at which a program's answers break the law, and shows the smallest; gives their number."""
    cuts, wrong, refused = len(answers) // 3, [], 0
    for at in range(0, 3 * cuts, 3):
        asked, got = requests[at : at + 3], answers[at : at + 3]
        refused += any(Texts.answer(each)[0] for each in got)
        what = broken(got)
        if what:
            wrong.append((what, asked, got))
    for what, asked, got in sorted(wrong, key=lambda each: len(each[1][0]))[:SHOWN]:
        print(f"--- {side}: {what}")
        for part, request, answer in zip(("whole", "upper part", "tail"), asked, got):
            print(f"  {part}: {Texts.show_request(request)}\n  is {Texts.show_answer(answer)}")
    print(f"{side}: {cuts} cuts, {refused} refused, {len(wrong)} break the law of cuts")
    return len(wrong)
