#!/usr/bin/env python3
"""Runs the program `plan` on every stream of the fixed list, and holds what it writes to the list.

    tools/replay_plans.py [--program crates/plan/out/plan] [--list tests/answers/plans.list]

The list is what `oracle replies` prints. The program is x86-64 code; on another machine Debian's emulator runs it.
"""

import argparse
import pathlib
import platform
import subprocess
import sys

ROOT = pathlib.Path(__file__).parents[1]
# no plan takes near so long; one that hangs is a failure
SECONDS = 60


class Bad(Exception):
    """A list that this tool does not understand."""


def cases(text):
    """(name, stream, reply) of each case in a list."""
    name = stream = reply = None
    for line, said in enumerate(text.splitlines(keepends=True), 1):
        if not said.startswith("case "):
            if name is None:
                raise Bad(f"line {line} stands before any case")
            reply += said
            continue
        if name is not None:
            yield name, stream, reply
        # a stream may be empty
        kind, number, digits = [*said.rstrip("\n").split(" ")[1:], ""][:3]
        try:
            stream = bytes.fromhex(digits)
        except ValueError as why:
            raise Bad(f"line {line}: {why}") from None
        name, reply = f"{kind} {number}", ""
    if name is None:
        raise Bad("there is no case")
    yield name, stream, reply


def command(program):
    """How this machine runs a program for x86-64."""
    native = platform.machine() in ("x86_64", "AMD64")
    return [str(program)] if native else ["qemu-x86_64", str(program)]


def replied(program, stream):
    """What the program writes for a stream."""
    ran = subprocess.run(command(program), input=stream, capture_output=True, timeout=SECONDS)
    if ran.returncode or ran.stderr:
        raise Bad(f"the program ended with status {ran.returncode} and said {ran.stderr!r}")
    return ran.stdout.decode("ascii", "replace")


def main():
    parser = argparse.ArgumentParser(description=__doc__, formatter_class=argparse.RawDescriptionHelpFormatter)
    parser.add_argument("--program", type=pathlib.Path, default=ROOT / "crates/plan/out/plan")
    parser.add_argument("--list", type=pathlib.Path, default=ROOT / "tests" / "answers" / "plans.list")
    asked = parser.parse_args()
    differing = count = 0
    try:
        for name, stream, reply in cases(asked.list.read_text()):
            count += 1
            got = replied(asked.program, stream)
            if got != reply:
                differing += 1
                print(f"{name}: plan wrote\n{got}and the list has\n{reply}", file=sys.stderr)
    except (OSError, Bad, subprocess.TimeoutExpired) as why:
        sys.exit(f"replay_plans: {why}")
    if differing:
        sys.exit(f"replay_plans: {differing} of {count} replies differ from the list")
    print(f"replayed {count} replies of plan, all as listed")


if __name__ == "__main__":
    main()
