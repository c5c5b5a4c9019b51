"""Certificates, read by another hand than `check`: what it has to answer of a text, worked from the clauses that `cnf` prints of each obligation.

A certificate is a text of lines: `ygg-cert 1`; for each obligation in order `o NAME C`, where C counts its clauses, the `c` lines that derive clauses from them,
and `e`; and last `end`.
"""
import random

GREATEST = 2**64 - 1


def is_number(word):
    return word.isdigit() and word.isascii() and word[0] != "0" and int(word) <= GREATEST


def parted(words):
    """The literals and the numbers of a line `c LIT .. 0 ID .. 0`, given its words after `c`; None where it is no such line."""
    if words.count("0") != 2 or words[-1] != "0":
        return None
    middle = words.index("0")
    literals, numbers = words[:middle], words[middle + 1 : -1]
    fits = all(is_number(word.removeprefix("-")) for word in literals) and all(is_number(word) for word in numbers)
    return ([int(word) for word in literals], [int(word) for word in numbers]) if fits else None


def may_begin(front):
    """Whether a line `c ..` or `e` may begin so."""
    if front in ("", "c", "e"):
        return True
    if not front.startswith("c "):
        return False
    *words, last = front[2:].split(" ")
    zeros = words.count("0")
    is_whole = all(word == "0" or is_number(word.removeprefix("-") if place <= (words.index("0") if zeros else len(words)) else word)
                   for place, word in enumerate(words))
    if zeros > 1 or not is_whole:
        return False
    return last in ("", "0") or is_number(last.removeprefix("-") if zeros == 0 else last) or (last == "-" and zeros == 0)


def derived(literals, numbers, held):
    """Whether the clauses of these numbers, one after another, come to these literals."""
    if not numbers or any(number > len(held) for number in numbers):
        return False
    clause = set(held[numbers[0] - 1])
    for number in numbers[1:]:
        crossed = [literal for literal in clause if -literal in held[number - 1]]
        if len(crossed) != 1:
            return False
        clause = (clause - {crossed[0]}) | (set(held[number - 1]) - {-crossed[0]})
    return clause == set(literals)


class Ended(Exception):
    """The answer: a status and a line."""


class Lines:
    """The lines of a text, of which the last has no line feed."""

    def __init__(self, text):
        self.lines = text.split("\n")
        self.place = 0

    def next(self, may, number):
        """The next line, where `may` says of a front whether such a line may begin so; else refused with this number, or 24 where it ends too early."""
        line = self.lines[self.place]
        self.place += 1
        if self.place == len(self.lines):
            ended = f"24 {self.place}:{len(line) + 1}" if may(line) else f"{number} {self.place}:1"
            raise Ended(2, f"refused {ended}\n")
        return line

    def only(self, wanted, number):
        """Takes the line that alone may stand here."""
        if self.next(wanted.startswith, number) != wanted:
            raise Ended(2, f"refused {number} {self.place}:1\n")


def judge(text, goals):
    """Ends with what `check` answers of a text as the certificate for goals: a name and a list of clauses each."""
    lines = Lines(text)
    lines.only("ygg-cert 1", 21)
    for name, clauses in goals:
        lines.only(f"o {name} {len(clauses)}", 22)
        held = list(clauses)
        while (line := lines.next(may_begin, 22)) != "e":
            step = parted(line[2:].split(" ")) if line.startswith("c ") else None
            if step is None:
                raise Ended(2, f"refused 22 {lines.place}:1\n")
            if not derived(*step, held):
                raise Ended(1, f"bad {name} {len(held) + 1}\n")
            held.append(step[0])
        if [] not in held:
            raise Ended(1, f"bad {name} 0\n")
    lines.only("end", 22)
    if lines.lines[lines.place :] != [""]:
        raise Ended(2, f"refused 22 {lines.place + 1}:1\n")
    raise Ended(0, f"checked {len(goals)}\n")


def answer(text, goals):
    """What `check` answers: a status and a line."""
    try:
        judge(text, goals)
    except Ended as ended:
        return ended.args


def clauses_in(text):
    """The clauses of a text in the DIMACS form, without repeated literals."""
    words = [int(word) for line in text.splitlines() if line[:1] not in ("c", "p") for word in line.split()]
    clauses, clause = [], []
    for word in words:
        if word:
            clause.append(word)
        else:
            clauses.append(clause)
            clause = []
    return clauses


def damaged(text, many):
    """The text with one thing changed: its first line, each `o` line, and so many of its other lines; and fronts of it. Each by its name."""
    lines = text.splitlines()
    drawn = random.Random(7)
    yield "another version", "\n".join(["ygg-cert 9", *lines[1:]]) + "\n"
    yield "bytes after the end", text + "e\n"
    yield "a byte after the end", text + "e"
    yield "without the last byte", text[:-1]
    yield "an empty line after the end", text + "\n"
    yield "empty", ""
    yield "the first line without its end", lines[0]
    places = [place for place, line in enumerate(lines) if line.startswith("o ")]
    begun = "\n".join(lines[: places[0] + 1]) + "\n"
    for end in ("x", "c 02 0", f"c {GREATEST} 0", f"c {GREATEST + 1}", "e\r", "c 0 1 0\n", "c 0 0\n", "e\n"):
        yield f"the first obligation's line and then {end!r}", begun + end
    for place in places:
        name, count = lines[place].split()[1:]
        for line in (f"o {name} 0", f"o {name} {int(count) + 1}", f"o {name}x {count}", f"o {name} 0{count}", f"o {name} {count} "):
            yield f"line {place + 1} is {line!r}", "\n".join([*lines[:place], line, *lines[place + 1 :]]) + "\n"
    if len(places) > 1:
        first, second, third = places[0], places[1], [*places, len(lines) - 1][2]
        yield "two obligations in another order", "\n".join([*lines[:first], *lines[second:third], *lines[first:second], *lines[third:]]) + "\n"
    others = [place for place, line in enumerate(lines) if line[:1] in ("c", "e")]
    for place in sorted(drawn.sample(others, min(many, len(others)))):
        words = lines[place].split(" ")
        changed = ["", "c 0 1 0", "c 0 0", "e", lines[place] + " ", *([] if words == ["e"] else [
            " ".join(["c", "1", *words[1:]]),
            " ".join([*words[:-2], "0"]),
            " ".join([*words[:-1], "1", "0"]),
            " ".join([*words[:-1], str(GREATEST + 1), "0"]),
            " ".join(["c", *reversed(words[1:-1]), "0"]),
        ])]
        for line in changed:
            yield f"line {place + 1} is {line!r}", "\n".join([*lines[:place], line, *lines[place + 1 :]]) + "\n"
        yield f"without line {place + 1}", "\n".join([*lines[:place], *lines[place + 1 :]]) + "\n"
    for end in sorted(drawn.sample(range(len(text)), min(many, len(text)))):
        yield f"the first {end} bytes", text[:end]
