#!/usr/bin/env python3
"""Makes the request stream of `plan` from a plain description: tools/make_request.py FILE > STREAM

A description has a thing a line; `#` starts a comment:

    budget POPS
    agent FOOTPRINT FOLLOW
    from TIME X Y
    to TIME X Y
    obstacle FOOTPRINT FOLLOW CONFLICT      any number of these, each with its waypoints after it:
    at TIME X Y

A time is a number with a unit, s, ms, us or ns, and comes to whole nanoseconds. Lengths are in metres; CONFLICT is a distance
squared. Only what the stream cannot hold is an error here: whether a request is allowed, `plan` says.
"""

import argparse
import decimal
import pathlib
import struct
import sys
from dataclasses import dataclass, field

EDITION = 1
UNITS = {"ns": 1, "us": 10**3, "ms": 10**6, "s": 10**9}
FORMS = {
    "budget": "POPS",
    "agent": "FOOTPRINT FOLLOW",
    "from": "TIME X Y",
    "to": "TIME X Y",
    "obstacle": "FOOTPRINT FOLLOW CONFLICT",
    "at": "TIME X Y",
}
ONCE = ("budget", "agent", "from", "to")


class Mistake(Exception):
    """What is wrong, and on which line; line 0 stands for the whole description."""

    def __init__(self, line, what):
        super().__init__(what)
        self.line = line


@dataclass
class Request:
    """Fields as the stream has them: times in nanoseconds, everything else as floats, and the budget."""

    budget: int = 0
    agent: tuple = ()
    start: tuple = ()
    goal: tuple = ()
    obstacles: list = field(default_factory=list)


@dataclass
class Obstacle:
    numbers: tuple
    waypoints: list = field(default_factory=list)


def whole(word, most, line, name):
    """A whole number from 0 to most."""
    if not word.isascii() or not word.isdigit():
        raise Mistake(line, f"{name} `{word}` is not a whole number")
    if int(word) > most:
        raise Mistake(line, f"{name} {word} is more than the stream holds, {most}")
    return int(word)


def length(word, line):
    """A double, as near to the number as there is one."""
    try:
        return float(word)
    except ValueError:
        raise Mistake(line, f"`{word}` is not a number") from None


def nanoseconds(word, line):
    """A time of the stream: 50 bits."""
    number = word.rstrip("numsu")
    unit = word[len(number):]
    if unit not in UNITS:
        raise Mistake(line, f"time `{word}` needs a unit: {', '.join(UNITS)}")
    try:
        ns = decimal.Decimal(number) * UNITS[unit]
    except decimal.InvalidOperation:
        raise Mistake(line, f"time `{word}` is not a number with a unit") from None
    if not ns.is_finite() or ns != ns.to_integral_value():
        raise Mistake(line, f"time `{word}` is no whole number of nanoseconds")
    if not 0 <= ns < 1 << 50:
        raise Mistake(line, f"time `{word}` is not from 0 to {(1 << 50) - 1} ns, which the stream holds")
    return int(ns)


def waypoint(words, line):
    time, x, y = words
    return nanoseconds(time, line), length(x, line), length(y, line)


def take(request, word, words, line):
    """Adds what one line says to a request."""
    if word == "budget":
        request.budget = whole(words[0], 65535, line, "budget")
    elif word == "agent":
        request.agent = tuple(length(w, line) for w in words)
    elif word == "from":
        request.start = waypoint(words, line)
    elif word == "to":
        request.goal = waypoint(words, line)
    elif word == "obstacle":
        if len(request.obstacles) == 63:
            raise Mistake(line, "a 64th obstacle is more than the stream holds")
        request.obstacles.append(Obstacle(tuple(length(w, line) for w in words)))
    elif not request.obstacles:
        raise Mistake(line, "`at` stands before any `obstacle`")
    elif len(request.obstacles[-1].waypoints) == 511:
        raise Mistake(line, "a 512th waypoint is more than the stream holds")
    else:
        request.obstacles[-1].waypoints.append(waypoint(words, line))


def parsed(text):
    """The request of a description."""
    request, seen = Request(), {}
    for line, said in enumerate(text.splitlines(), 1):
        word, *words = said.split("#")[0].split() or [""]
        if not word:
            continue
        if word not in FORMS:
            raise Mistake(line, f"`{word}` is none of {', '.join(FORMS)}")
        if len(words) != len(FORMS[word].split()):
            raise Mistake(line, f"`{word}` is followed by {FORMS[word]}")
        if word in ONCE and word in seen:
            raise Mistake(line, f"`{word}` stands on line {seen[word]} already")
        seen[word] = line
        take(request, word, words, line)
    for word in ONCE:
        if word not in seen:
            raise Mistake(0, f"there is no line `{word} {FORMS[word]}`")
    return request


def fields(request):
    """(value, bits) of every field in order."""
    def double(x):
        return int.from_bytes(struct.pack(">d", x), "big"), 64

    def at(waypoint):
        time, x, y = waypoint
        return (time, 50), double(x), double(y)

    yield from ((EDITION, 4), (len(request.obstacles), 6), (request.budget, 16))
    yield from map(double, request.agent)
    yield from at(request.start)
    yield from at(request.goal)
    for obstacle in request.obstacles:
        yield from map(double, obstacle.numbers)
        yield len(obstacle.waypoints), 9
        for waypoint in obstacle.waypoints:
            yield from at(waypoint)


def packed(request):
    """Fields bit by bit, the most significant first, and zeros up to a whole byte."""
    value = bits = 0
    for number, width in fields(request):
        value, bits = value << width | number, bits + width
    fill = -bits % 8
    return (value << fill).to_bytes((bits + fill) // 8, "big")


def main():
    parser = argparse.ArgumentParser(description=__doc__, formatter_class=argparse.RawDescriptionHelpFormatter)
    parser.add_argument("file", type=pathlib.Path, help="the description")
    file = parser.parse_args().file
    try:
        stream = packed(parsed(file.read_text()))
    except (OSError, UnicodeDecodeError) as why:
        sys.exit(f"make_request: {file}: {why}")
    except Mistake as why:
        place = f"{file}:{why.line}" if why.line else file
        sys.exit(f"make_request: {place}: {why}")
    sys.stdout.buffer.write(stream)


if __name__ == "__main__":
    main()
