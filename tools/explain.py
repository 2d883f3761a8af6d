#!/usr/bin/env python3
"""Says in words what `plan` answered: crates/plan/out/plan < STREAM | tools/explain.py, or tools/explain.py FILE"""

import argparse
import pathlib
import re
import struct
import sys

REFUSALS = {
    1: "a number of the request is outside the table: a time, a place, a footprint, a follow buffer or a conflict distance",
    2: "the stream is no request: it is cut short or too long, or a count or the order of times is outside the table",
    3: "the agent's end is before its start",
    4: "the agent's way is too short to have a direction",
    5: "a cart creeps: it moves too slowly beside the agent to tell when they come near",
    6: "a meeting would end before it begins",
    7: "a time or a place strayed past what can be told exactly",
    8: "the search for arrival times is stuck: a cart touches the goal's clearance and turns back",
    9: "the search for arrival times came upon a time that is past",
    10: "there are more than 64 places to wait",
    11: "the budget of pops is spent",
    12: "the plan has more than 1,600 actions",
}
# each line's word and its fields: n a count, t a time that may be below zero, b the 16 digits of a double
FORMS = {"ok": "nnnn", "path": "tnt", "move": "tbb", "wait": "nt", "refused": "n"}
FIELDS = {"n": r"\d+", "t": r"-?\d+", "b": r"[0-9a-f]{16}"}


class Mistake(Exception):
    """What is wrong, and on which line."""

    def __init__(self, line, what):
        super().__init__(what)
        self.line = line


def many(count, one, more):
    return f"{count} {one if count == 1 else more}"


def seconds(ns):
    """Nanoseconds in seconds, with as many digits as they have."""
    sign, ns = "-" if ns < 0 else "", abs(ns)
    after = f"{ns % 10**9:09d}".rstrip("0")
    return f"{sign}{ns // 10**9}{'.' if after else ''}{after} s"


def place(x, y):
    """The doubles of two patterns, in the fewest digits that give them back."""
    def metres(pattern):
        x, = struct.unpack(">d", bytes.fromhex(pattern))
        return repr(x).removesuffix(".0")

    return f"({metres(x)}, {metres(y)})"


def parsed(line, said):
    """The word of a line and its fields: numbers, but doubles as their digits."""
    word, *words = said.split(" ")
    if word not in FORMS:
        raise Mistake(line, f"`{word}` begins no line of plan's: they begin with {', '.join(FORMS)}")
    form = FORMS[word]
    if len(words) != len(form) or not all(re.fullmatch(FIELDS[f], w) for f, w in zip(form, words)):
        raise Mistake(line, f"`{said}` has not the fields of `{word}`")
    return word, [w if f == "b" else int(w) for f, w in zip(form, words)]


def told(word, fields, arrived):
    """A line in words; arrived says whether the agent has moved in this path."""
    if word == "ok":
        hints, times, sweeps, paths = fields
        return (
            f"{many(paths, 'path', 'paths')}, for {many(times, 'arrival time', 'arrival times')} found in "
            f"{many(sweeps, 'sweep', 'sweeps')}, with {many(hints, 'place', 'places')} to wait in view"
        )
    if word == "path":
        arrival, pops, hold = fields
        held = f"waits of {seconds(hold)} in all" if hold else "no wait"
        return f"to be there at {seconds(arrival)}: {held}, {many(pops, 'pop', 'pops')}"
    if word == "move":
        time, x, y = fields
        return f"  {'go on to' if arrived else 'go to'} {place(x, y)}, there at {seconds(time)}"
    obstacle, end = fields
    return f"  wait there for obstacle {obstacle} until {seconds(end)}"


def refusal(line, number):
    if number not in REFUSALS:
        raise Mistake(line, f"{number} is no refusal's number")
    return f"refused, {number}: {REFUSALS[number]}"


def explained(text):
    """An answer in words, a line for each of its lines."""
    if text and not text.endswith("\n"):
        raise Mistake(text.count("\n") + 1, "the last line has no end")
    before, arrived, said = None, False, []
    for line, one in enumerate(text.split("\n")[:-1], 1):
        word, fields = parsed(line, one)
        if (line == 1) != (word in ("ok", "refused")):
            raise Mistake(line, "the first line, and no other, begins with `ok` or `refused`")
        if before == "refused" or (word in ("move", "wait") and before == "ok"):
            raise Mistake(line, f"`{word}` cannot follow `{before}`")
        arrived = word in ("move", "wait") and arrived
        said.append(refusal(line, *fields) if word == "refused" else told(word, fields, arrived))
        before, arrived = word, arrived or word == "move"
    if not said:
        raise Mistake(1, "there is no answer")
    return "".join(f"{one}\n" for one in said)


def main():
    parser = argparse.ArgumentParser(description=__doc__)
    parser.add_argument("file", nargs="?", type=pathlib.Path, help="the answer; without it, standard input")
    file = parser.parse_args().file
    name = file or "standard input"
    try:
        text = file.read_text() if file else sys.stdin.read()
        sys.stdout.write(explained(text))
    except (OSError, UnicodeDecodeError) as why:
        sys.exit(f"explain: {name}: {why}")
    except Mistake as why:
        sys.exit(f"explain: {name}:{why.line}: {why}")


if __name__ == "__main__":
    main()
