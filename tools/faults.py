"""The faults of the must-fail edits: what each changes, and where the prover is to refuse it.

A check of a crate takes as long for ten faults as for one, so an edit holds several. A fault is

    # LABEL: what holds without it
    refused: PROOF at FACT, FACT
    file: FILE
    old: TEXT
    new: TEXT

with a line `refused:` for each proof that it breaks, and a pair `old:` and `new:` for each place that it changes. PROOF is a
function by its path in the crate, as `time::TimePoint::since`, or a file with laws; FACT is the name of what no longer holds in
it. No two faults of an edit name the same fact. `rt` reads the last three kinds of line and passes over the others.
"""

import re
from pathlib import Path
from typing import NamedTuple

from house import Fault as Found

LABEL = re.compile(r"# (\w+): (\S.*)")
REFUSED = re.compile(r"refused: (\S+) at (\S.*)")
PARTS = ("file: ", "old: ", "new: ")


class Fact(NamedTuple):
    """What no longer holds, and the proof in which it stands."""

    proof: str
    name: str

    def __str__(self):
        return f"`{self.name}` of `{self.proof}`"


class Fault(NamedTuple):
    """A fault of an edit: its place, its name, what holds without it, the facts that it breaks, and its lines for `rt`."""

    file: str
    line: int
    crate: str
    label: str
    why: str
    refused: list
    lines: list


def edits_of(root):
    """The edits of the house, by crate and name."""
    return sorted(Path(root, "crates").glob("*/must-fail/*.edit"))


def read_edit(root, path, found):
    """The faults of one edit; where its form is wrong `found` says so."""
    file, faults = path.relative_to(root).as_posix(), []
    for number, line in enumerate(path.read_text(encoding="utf-8").splitlines(), 1):
        label, refused = LABEL.fullmatch(line), REFUSED.fullmatch(line)
        if label:
            faults.append(Fault(file, number, path.parents[1].name, label[1], label[2], [], []))
        elif line and not faults:
            found.append(Found(file, number, "stands before the first fault, `# LABEL: what holds without it`"))
        elif refused:
            faults[-1].refused.extend(Fact(refused[1], name.strip()) for name in refused[2].split(","))
        elif line.startswith(PARTS):
            faults[-1].lines.append(line)
        elif line:
            found.append(Found(file, number, "is no line of a fault"))
    if not faults:
        found.append(Found(file, 1, "has no fault"))
    for fault in faults:
        found.extend(Found(file, fault.line, f"`{fault.label}` {text}") for text in wrong_with(fault))
    found.extend(Found(file, 1, f"{fact} is named twice") for fact in named_twice(faults))
    return faults


def wrong_with(fault):
    """What a fault lacks."""
    if not fault.refused:
        yield "does not say where it is refused"
    kinds = [line.split(" ", 1)[0] for line in fault.lines]
    if kinds[:1] != ["file:"] or not re.fullmatch(r"((file: )?old: new: )+", "".join(kind + " " for kind in kinds)):
        yield "needs `file:`, `old:` and `new:`, in this order"


def named_twice(faults):
    """The facts that two faults of an edit break: a refusal there would not say which of them is refused."""
    seen = set()
    for fact in (fact for fault in faults for fact in fault.refused):
        if fact in seen:
            yield fact
        seen.add(fact)


def read_all(root):
    """Edit -> its faults, for all edits, and what is wrong with their form."""
    found, labels = [], {}
    edits = {path: read_edit(root, path, found) for path in edits_of(root)}
    for fault in (fault for faults in edits.values() for fault in faults):
        other = labels.setdefault((fault.crate, fault.label), fault)
        if other is not fault:
            found.append(Found(fault.file, fault.line, f"`{fault.label}` is also a fault of {other.file}"))
    return edits, found
