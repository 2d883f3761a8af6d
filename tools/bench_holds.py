#!/usr/bin/env python3
"""Times the program `holds` on a year of 100,000 lines against mawk, which works out the same sums and maxima.

    tools/bench_holds.py [--rounds 15] [--program crates/holds/out/holds] [--mawk MAWK]

Both read the same file and print the same report, in turns, in one run; a line gives the median of the rounds and the ends, the
ratio also the quartiles. Processor time is user and system time of the whole process. The program is x86-64 code: on another
machine it is emulated, and so is then a mawk for amd64, which is fetched from Debian into a scratch folder; --mawk names another.
An emulator takes long for the doubles that mawk adds, so this machine's own mawk is timed too. mawk looks at no line's form; the
holds are small enough to be added exactly as doubles. Then the program runs once more in a stack of 64 KiB.
"""

import argparse
import operator
import pathlib
import platform
import random
import re
import resource
import shutil
import statistics
import subprocess
import sys
import tempfile
import time
from typing import NamedTuple

import replay_plans

ROOT = pathlib.Path(__file__).parents[1]
PROGRAM = ROOT / "crates/holds/out/holds"
LINES = 100_000
STACK = 64 * 1024
LEAST_EMULATED = 128 * 1024
SECONDS = 120

AWK = r"""
{
    hold = $3 + 0
    if (!rounds[$1]++ || hold > largest[$1]) largest[$1] = hold
    total[$1] += hold
}
END {
    printf "ok %d\n", NR
    for (crew = 0; crew < 64; crew++) {
        n = rounds[crew]
        if (!n) { printf "crew %d 0 0\n", crew; continue }
        mean = int(total[crew] / n)
        if (mean * n > total[crew]) mean--
        printf "crew %d %d %.0f %.0f %.0f %.0f\n", crew, n, total[crew], largest[crew], mean, total[crew] - mean * n
    }
}
"""


class Bad(Exception):
    """What is missing or went wrong, and what to do."""


class Side(NamedTuple):
    """What is timed: its name and how it is started; the text comes on standard input."""

    name: str
    command: list


class Took(NamedTuple):
    """A run's seconds, of the processor and by the clock."""

    processor: float
    clock: float


# ---- The year.


def year(lines=LINES):
    """Lines as in a long year: minutes of waiting, some of them below zero."""
    dice = random.Random(1)
    rounds = [0] * 64
    said = []
    for _ in range(lines):
        crew = dice.randrange(64)
        rounds[crew] += 1
        hold = -dice.randrange(1, 10**9) if dice.random() < 0.05 else dice.randrange(6 * 10**11)
        said.append(f"{crew} {crew * 10_000 + rounds[crew]} {hold}\n")
    return "".join(said)


# ---- The machine.


def native():
    return platform.machine() in ("x86_64", "AMD64")


def printed(*command):
    """What a command prints, or nothing where there is no such command."""
    try:
        return subprocess.run(command, capture_output=True, text=True, timeout=SECONDS, check=False).stdout
    except OSError:
        return ""


def machine():
    """The processor, and what emulates another there."""
    named = re.search(r"^Model name: *(.*)$", printed("lscpu"), re.M)
    processor = named[1] if named else "unknown processor"
    if native():
        return processor
    emulator = printed("qemu-x86_64", "--version").partition("\n")[0]
    return f"{processor} ({platform.machine()}), x86-64 emulated by {emulator}"


def mawk_for_amd64(folder):
    """Fetches Debian's mawk for amd64 and unpacks it."""
    how = "dpkg --add-architecture amd64 && apt-get update, then again; or name one by --mawk"
    for command in (["apt-get", "download", "mawk:amd64"], ["sh", "-c", "dpkg-deb -x mawk_*_amd64.deb ."]):
        ran = subprocess.run(command, cwd=folder, capture_output=True, text=True, timeout=SECONDS, check=False)
        if ran.returncode:
            raise Bad(f"there is no mawk for amd64 to emulate: {ran.stderr.strip()}\n{how}")
    return pathlib.Path(folder, "usr/bin/mawk")


def mawk_side(command, script, where=""):
    version = printed(*command, "-W", "version").partition("\n")[0] or "mawk"
    return Side(version + where, [*command, "-f", str(script)])


def mawk_sides(given, folder):
    """mawk as the program is run; and where that is emulated, this machine's own, if it has one."""
    script = pathlib.Path(folder, "report.awk")
    script.write_text(AWK)
    own = shutil.which("mawk")
    if not native():
        emulated = replay_plans.command(given or mawk_for_amd64(folder))
        yield mawk_side(emulated, script)
        if own:
            yield mawk_side([own], script, ", not emulated")
    elif given or own:
        yield mawk_side([str(given or own)], script)
    else:
        raise Bad("mawk is missing: apt-get install mawk, or name one by --mawk")


# ---- Times.


def run(side, text):
    """What a side prints for a file, and how long it took."""
    before, began = resource.getrusage(resource.RUSAGE_CHILDREN), time.perf_counter()
    with open(text, "rb") as file:
        ran = subprocess.run(side.command, stdin=file, capture_output=True, timeout=SECONDS, check=False)
    clock, after = time.perf_counter() - began, resource.getrusage(resource.RUSAGE_CHILDREN)
    if ran.returncode or ran.stderr:
        raise Bad(f"{side.name} ended with status {ran.returncode} and said {ran.stderr!r}")
    return ran.stdout, Took(after.ru_utime + after.ru_stime - before.ru_utime - before.ru_stime, clock)


def in_turns(sides, text, rounds):
    """The times of each side, by rounds; who goes first changes. All print the same."""
    times, reports = {side.name: [] for side in sides}, set()
    for number in range(rounds):
        for side in sides if number % 2 else reversed(sides):
            report, took = run(side, text)
            reports.add(report)
            times[side.name].append(took)
    if len(reports) != 1:
        raise Bad("the reports differ from one another")
    return times


def spread(numbers, form):
    """The median of numbers, and their ends."""
    low, middle, high = (format(f(numbers), form) for f in (min, statistics.median, max))
    return f"{middle} ({low} to {high})"


def told(times):
    """The lines of the sides, and of the first one's ratio to each other."""
    for name, took in times.items():
        processor, clock = ([getattr(one, field) for one in took] for field in Took._fields)
        yield f"{name}: {spread(processor, '.3f')} s of processor time, {spread(clock, '.3f')} s by the clock"
    (ours, first), *others = times.items()
    for theirs, took in others:
        ratios = [a.processor / b.processor for a, b in zip(first, took)]
        low, _, high = statistics.quantiles(ratios, n=4)
        spent = (statistics.median(one.processor for one in side) for side in (first, took))
        yield (
            f"{ours} to {theirs}: {operator.truediv(*spent):.2f} by the medians; "
            f"{len(ratios)} rounds {spread(ratios, '.2f')}, quartiles {low:.2f} to {high:.2f}"
        )


def in_a_small_stack(program, text):
    """Whether the program gives its report in so small a stack."""
    command = ["sh", "-c", f'ulimit -s {STACK // 1024} && exec "$0"', str(program)]
    if not native():
        # the emulator gives 128 KiB or more, so what is too much is filled from the environment
        fill = "x" * (LEAST_EMULATED - STACK)
        command = ["qemu-x86_64", "-s", str(LEAST_EMULATED), "-E", f"FILL={fill}", str(program)]
    with open(text, "rb") as file:
        ran = subprocess.run(command, stdin=file, capture_output=True, timeout=SECONDS, check=False)
    return ran.returncode == 0 and ran.stdout.startswith(b"ok ")


def measured(asked, folder):
    """Prints all lines."""
    if not asked.program.is_file():
        raise Bad(f"{asked.program} is not there: ./holds builds it")
    text = pathlib.Path(folder, "year.holds")
    text.write_text(year())
    sides = (Side("holds", replay_plans.command(asked.program)), *mawk_sides(asked.mawk, folder))
    print(f"{LINES:,} lines, {text.stat().st_size:,} bytes; {machine()}")
    for line in told(in_turns(sides, text, asked.rounds)):
        print(line)
    if not in_a_small_stack(asked.program, text):
        raise Bad(f"the program gives no report in a stack of {STACK // 1024} KiB")
    print(f"a stack of {STACK // 1024} KiB is enough")


def main():
    parser = argparse.ArgumentParser(description=__doc__, formatter_class=argparse.RawDescriptionHelpFormatter)
    parser.add_argument("--rounds", type=int, default=15, help="two or more")
    parser.add_argument("--program", type=pathlib.Path, default=PROGRAM)
    parser.add_argument("--mawk", type=pathlib.Path, help="a mawk for x86-64")
    asked = parser.parse_args()
    if asked.rounds < 2:
        parser.error("a spread needs two rounds or more")
    try:
        with tempfile.TemporaryDirectory() as folder:
            measured(asked, folder)
    except (Bad, OSError, subprocess.TimeoutExpired) as why:
        sys.exit(f"bench_holds: {why}")


if __name__ == "__main__":
    main()
