#!/usr/bin/env python3
"""Says in words what `holds` reported of a year: crates/holds/out/holds < TEXT | tools/explain_holds.py, or tools/explain_holds.py REPORT

    tools/explain_holds.py [--names NAMES] [--of TEXT] [REPORT]

With --names the crews have names, from lines `NUMBER NAME`. With --of the text of the year is at hand: of a refusal the line is
found that decided, the last of the shortest beginning of the text that the program refuses, and what is wrong with it is said.
Without REPORT the report is then the program's own of that text. The program is the one that ./holds builds; on a machine other
than x86-64 Debian's emulator runs it.
"""

import argparse
import functools
import pathlib
import re
import subprocess
import sys
from typing import NamedTuple

import replay_plans

PROGRAM = pathlib.Path(__file__).parents[1] / "crates/holds/out/holds"
CREWS = 64
LINES = 100_000
MOST, LEAST = 2**63 - 1, -(2**63)
LINE, OVERFLOW = 14, 15
REFUSALS = {
    LINE: f"a line is malformed, or is one more than the {LINES:,} that a year may have",
    OVERFLOW: "with a line its crew's total leaves the signed numbers of 64 bits",
}

# no number of a report has more digits
NUMBER = re.compile(r"0|-?[1-9]\d{0,19}", re.ASCII)
COUNT = re.compile(r"0|[1-9]\d{0,19}", re.ASCII)
FIELDS = ("crew", "round", "hold")


class Mistake(Exception):
    """What is wrong, and on which line of which file."""

    def __init__(self, line, what, file=None):
        super().__init__(what)
        self.line, self.file = line, file


class Crew(NamedTuple):
    """A crew's fields in the report; of one without rounds all are 0."""

    rounds: int
    total: int = 0
    largest: int = 0
    mean: int = 0
    remainder: int = 0


# ---- Words.


def many(count, one, more):
    return f"{count:,} {one if count == 1 else more}"


def seconds(ns):
    """Nanoseconds in minutes and seconds, with as many digits as they have."""
    sign, ns = "-" if ns < 0 else "", abs(ns)
    minutes, ns = divmod(ns, 60 * 10**9)
    after = f"{ns % 10**9:09d}".rstrip("0")
    said = f"{ns // 10**9}{'.' if after else ''}{after} s"
    return f"{sign}{minutes:,} min {said}" if minutes else f"{sign}{said}"


def and_so(words):
    return " and ".join(part for part in (", ".join(words[:-1]), *words[-1:]) if part)


def runs(numbers):
    """Rising numbers, those that follow one another as `A to B`."""
    said, first = [], None
    for at, number in enumerate(numbers):
        first = number if first is None else first
        if at + 1 == len(numbers) or numbers[at + 1] != number + 1:
            said.append(f"{first}" if first == number else f"{first} to {number}")
            first = None
    return and_so(said)


# ---- Names.


def names_in(text, file):
    """The crews' names by number, from lines `NUMBER NAME`; empty lines are passed over."""
    names = {}
    for line, said in enumerate(text.splitlines(), 1):
        if not said.strip():
            continue
        number, _, name = said.partition(" ")
        if not COUNT.fullmatch(number) or int(number) >= CREWS or not name.strip():
            raise Mistake(line, f"`{said}` is not `NUMBER NAME` with a crew's number, 0 to {CREWS - 1}", file)
        if int(number) in names:
            raise Mistake(line, f"crew {number} has a name already: {names[int(number)]}", file)
        names[int(number)] = name.strip()
    return names


def called(number, names):
    return f"crew {number}, {names[number]}" if number in names else f"crew {number}"


# ---- The report.


def fields_of(line, said, word, counts):
    """The numbers behind a word, as many as one of the counts."""
    first, *words = said.split(" ")
    if first != word or len(words) not in counts or not all(NUMBER.fullmatch(one) for one in words):
        raise Mistake(line, f"`{said}` is no line of holds' that begins with `{word}`, in its place")
    return [int(one) for one in words]


def crew_in(line, said, number):
    crew, *rest = fields_of(line, said, "crew", (3, 6))
    told = Crew(*rest)
    if crew != number:
        raise Mistake(line, f"this is the place of crew {number}, and the line is of crew {crew}")
    if told.rounds < 0 or (told.rounds == 0) != (len(rest) == 2) or (told.rounds == 0 and told.total != 0):
        raise Mistake(line, f"`{said}`: a crew with rounds has six numbers, and one without them its number and two zeros")
    if told.rounds == 0:
        return told
    if told.total != told.mean * told.rounds + told.remainder or not 0 <= told.remainder < told.rounds:
        raise Mistake(line, f"`{said}`: the mean times the rounds, and the remainder, is not the total")
    if told.largest < told.mean:
        raise Mistake(line, f"`{said}`: the largest is below the mean")
    return told


def crews_in(text):
    """The crews of a report, or the number of a refusal."""
    if not text:
        raise Mistake(1, "there is no report")
    if not text.endswith("\n"):
        raise Mistake(text.count("\n") + 1, "the last line has no end")
    first, *rest = text.split("\n")[:-1]
    if first.startswith("refused "):
        number, = fields_of(1, first, "refused", (1,))
        if number not in REFUSALS:
            raise Mistake(1, f"{number} is no refusal of holds'")
        if rest:
            raise Mistake(2, "a refusal is a line alone")
        return number
    lines, = fields_of(1, first, "ok", (1,))
    if len(rest) != CREWS:
        raise Mistake(min(len(rest), CREWS) + 2, f"{many(len(rest), 'line follows', 'lines follow')} `ok`, and not {CREWS}")
    crews = [crew_in(number + 2, said, number) for number, said in enumerate(rest)]
    if sum(crew.rounds for crew in crews) != lines:
        raise Mistake(1, f"the crews' rounds together are not {lines}")
    return crews


def crew_told(number, crew, names):
    """What a crew lost, in two lines."""
    left = f"{crew.rounds:,} times that leaves {crew.remainder:,} ns of the total" if crew.remainder else "exactly"
    return (
        f"{called(number, names)}: {many(crew.rounds, 'round', 'rounds')}, {seconds(crew.total)} in all\n"
        f"  the largest hold {seconds(crew.largest)}, the mean {seconds(crew.mean)} ({left})\n"
    )


def idle_told(crews, names):
    """All crews without a round, in one line."""
    idle = [number for number, crew in enumerate(crews) if not crew.rounds]
    if not idle:
        return ""
    named = [f"{number} is {names[number]}" for number in idle if number in names]
    return f"no round: {'crew' if len(idle) == 1 else 'crews'} {runs(idle)}{f' ({and_so(named)})' if named else ''}\n"


def report_told(crews, names):
    at_work = [(number, crew) for number, crew in enumerate(crews) if crew.rounds]
    rounds, total = (sum(getattr(crew, field) for crew in crews) for field in ("rounds", "total"))
    return (
        "".join(crew_told(number, crew, names) for number, crew in at_work)
        + idle_told(crews, names)
        + f"all together: {many(len(at_work), 'crew', 'crews')}, {many(rounds, 'round', 'rounds')}, {seconds(total)}\n"
    )


# ---- The line that is refused.


def shown(line):
    """A line's bytes, those that do not print by their numbers, and of a long line the beginning."""
    text = line[:200].decode("ascii", "backslashreplace")
    text = "".join(c if c.isprintable() else f"\\x{ord(c):02x}" for c in text)
    return f"`{text}`{' and so on' if len(line) > 200 else ''}"


def byte_wrong(line):
    """What is wrong with the first byte that no line has."""
    stray = re.search(rb"[^0-9 -]", line)
    if not stray:
        return None
    names = {9: "a tab", 13: "a carriage return", 43: "a plus sign", 44: "a comma", 46: "a point"}
    byte = stray[0][0]
    name = names.get(byte, f"`{chr(byte)}`" if 32 < byte < 127 else f"the byte {byte}")
    return f"{name} stands at its byte {stray.start() + 1}: a line has digits, single spaces and a minus sign"


def spaces_wrong(fields):
    """What is wrong with how many fields there are."""
    if "" in fields:
        at = fields.index("")
        where = "at its beginning" if at == 0 else "at its end" if at == len(fields) - 1 else f"behind field {at}"
        return f"there is a space too many {where}, or a field is missing there"
    if len(fields) != 3:
        return f"it has {many(len(fields), 'field', 'fields')}, and not the three CREW ROUND HOLD"
    return None


def field_wrong(name, field, least, most):
    """What is wrong with a field that must be a decimal within limits."""
    said = f"the {name} {field[:40]}{'..' if len(field) > 40 else ''}"
    digits = field.removeprefix("-") if least < 0 else field
    if "-" in digits or not digits:
        rule = "a minus sign stands only in front of its digits" if least < 0 else "only a hold has a sign"
        return f"{said} is no number: {rule}"
    if digits[0] == "0" and len(digits) > 1:
        return f"{said} begins with a zero"
    if field == "-0":
        return f"{said} is zero, which has no minus sign"
    # so many digits are past every limit, and not all are worked out
    number = int(field[:40])
    if number > most:
        return f"{said} is above {most}"
    if number < least:
        return f"{said} is below {least}"
    return None


def malformed(line):
    """What is wrong with a line's form, or nothing."""
    if not line:
        return "the line is empty"
    byte = byte_wrong(line)
    if byte:
        return byte
    fields = line.decode("ascii").split(" ")
    limits = ((0, CREWS - 1), (0, 2**32 - 1), (LEAST, MOST))
    wrong = [spaces_wrong(fields)]
    if not wrong[0]:
        wrong = [field_wrong(name, field, *limit) for name, field, limit in zip(FIELDS, fields, limits)]
    return next((one for one in wrong if one), None)


def overflowed(before, line, names):
    """Which crew's total went too far with a line, and by how much; nothing where it did not."""
    number, _, hold = line.split(b" ")
    own = [int(one.split(b" ")[2]) for one in before if one.split(b" ", 1)[0] == number]
    total, now = sum(own), sum(own) + int(hold)
    if LEAST <= now <= MOST:
        return None
    past = f"{now - MOST} above {MOST}" if now > MOST else f"{LEAST - now} below {LEAST}"
    return (
        f"{called(int(number), names)}: the total of its {many(len(own), 'round', 'rounds')} before is {total} ns "
        f"({seconds(total)}); with this hold it would be {now} ns, {past}"
    )


def lines_in(text):
    """The lines of a text; the last may lack its newline."""
    lines = text.split(b"\n")
    return lines if lines[-1] else lines[:-1]


def shortest_refused(text, ask):
    """How many lines the shortest beginning has that is refused, given that the whole is: `ask` says what of bytes is reported."""
    lines = lines_in(text)
    taken, refused = 0, len(lines)
    while refused - taken > 1:
        middle = (taken + refused) // 2
        beginning = b"".join(line + b"\n" for line in lines[:middle])
        if ask(beginning).startswith("refused "):
            refused = middle
        else:
            taken = middle
    return refused


def wrong_with(lines, number, names):
    """Why the last of these lines is refused by a number; nothing where by the rules it is not."""
    form = malformed(lines[-1])
    if len(lines) > LINES:
        form = f"it is line {len(lines):,}, and a year has at most {LINES:,}"
    if number == LINE:
        return form
    return None if form else overflowed(lines[:-1], lines[-1], names)


def line_told(text, number, names, ask):
    """The line that decided a refusal, and what is wrong with it."""
    count = shortest_refused(text, ask)
    lines = lines_in(text)[:count]
    line, wrong = shown(lines[-1]), wrong_with(lines, number, names)
    if wrong is None:
        raise Mistake(count, f"the program refuses {line} with {number}, and by the rules it has no reason to", "the text")
    return f"line {count:,}: {line}\n  {wrong}\n"


def explained(report, names=None, text=None, ask=None):
    """A report in words. Of a refusal, with the text and with what the program says of a text, the line too."""
    names, crews = names or {}, crews_in(report)
    if text is not None and ask(text) != report:
        raise Mistake(1, "this is not what the program reports of the text")
    if not isinstance(crews, int):
        return report_told(crews, names)
    said = f"refused, {crews}: {REFUSALS[crews]}\n"
    if text is None:
        return f"{said}which line it is, `tools/explain_holds.py --of TEXT` finds in the text\n"
    return said + line_told(text, crews, names, ask)


def reported(program, text):
    """What the program says of a text."""
    if not program.is_file():
        raise replay_plans.Bad(f"{program} is not there: ./holds builds it")
    return replay_plans.replied(program, text)


def arguments():
    parser = argparse.ArgumentParser(description=__doc__, formatter_class=argparse.RawDescriptionHelpFormatter)
    parser.add_argument("report", nargs="?", type=pathlib.Path, metavar="REPORT", help="the report; without it, standard input")
    parser.add_argument("--names", type=pathlib.Path, metavar="NAMES", help="the crews' names, in lines `NUMBER NAME`")
    parser.add_argument("--of", type=pathlib.Path, metavar="TEXT", help="the text of the year")
    parser.add_argument("--program", type=pathlib.Path, default=PROGRAM, help="the program `holds`")
    return parser.parse_args()


def text_of(file):
    """What a file says, or standard input where none is named."""
    try:
        return file.read_text() if file else sys.stdin.read()
    except UnicodeDecodeError as why:
        raise Mistake(1, f"this is no text: {why}", file) from None


def said_of(asked):
    """What is to be printed for the arguments."""
    names = names_in(text_of(asked.names), asked.names) if asked.names else {}
    text = asked.of.read_bytes() if asked.of else None
    ask = functools.cache(functools.partial(reported, asked.program))
    report = ask(text) if asked.of and not asked.report else text_of(asked.report)
    return explained(report, names, text, ask)


def main():
    asked = arguments()
    try:
        sys.stdout.write(said_of(asked))
    except (OSError, replay_plans.Bad) as why:
        sys.exit(f"explain_holds: {why}")
    except subprocess.TimeoutExpired as why:
        sys.exit(f"explain_holds: {asked.program} did not end within {why.timeout:.0f} s")
    except Mistake as why:
        sys.exit(f"explain_holds: {why.file or asked.report or 'the report'}:{why.line}: {why}")


if __name__ == "__main__":
    main()
