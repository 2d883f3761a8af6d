#!/usr/bin/env python3
"""Writes the note that a change owes, docs/landings/NAME.md, with what moved between two commits filled in.

    tools/landing.py W2 --base REV [--to REV] [--before LOG --after LOG]
    tools/landing.py --check

What moved is told by crate: definitions (public types of the code among them), promises (the contracts of public functions), laws
and the proofs of functions. Comments and layout do not count; that a name of an unchanged text is brought in from elsewhere is
told. The time of the gate before and after is read from what `./test` printed, with how much of it `rt ci` proved in that run. A
note has places for sentences; --check fails where one is still empty.
"""

import argparse
import io
import re
import subprocess
import sys
import tarfile
from pathlib import Path
from typing import NamedTuple

import figures
from coverage import FUNCTION, TOKEN, items_of
from house import Fault

FOLDER = "docs/landings"
NAME = re.compile(r"[A-Za-z][\w.-]*")
EMPTY_PLACE = re.compile(r"\[say: [^\]]*\]")
KINDS = ("definitions", "promises", "laws", "proofs of functions")
COMMENT = {".antt": re.compile(r"(?:^|(?<=\s))--(?: .*|$)", re.M), ".rt": re.compile(r"//.*")}
USE = re.compile(r"^(?:pub )?(?:ghost )?use ([^\s;{]+?)(?:(?:\.|::)\{([^}]*)\})?(?: as (\w+))?;?$", re.M)
BODY = re.compile(r"^\s*\{$", re.M)
GATE = re.compile(r"^== the gate took (\d+) s$", re.M)
# The last part of what `rt ci` says where all is well: how much it proved anew, and how much it had kept.
SHARE = re.compile(r"^rt: ok; .*?; ([^;\n]*proof[^;\n]*(?:; the others [^;\n]*)?)$", re.M)


class Bad(Exception):
    """Why no note can be written."""


class Said(NamedTuple):
    """What stands under a name: its text without comments and layout, and where the names in it are brought in from."""

    text: str
    origins: frozenset


class Moves(NamedTuple):
    """What became of the names of one kind in one crate.

    `turned` have the same text, in which a name is brought in from elsewhere; `came` have the crate that they left with the same
    text.
    """

    added: list
    changed: list
    turned: list
    removed: list
    came: list
    stayed: int

    def __bool__(self):
        return any(self[:-1])


def git(root, *words):
    """What git says, as bytes."""
    ended = subprocess.run(["git", "-C", str(root), *words], capture_output=True, check=False)
    if ended.returncode:
        raise Bad(ended.stderr.decode(errors="replace").strip() or f"git {words[0]} failed")
    return ended.stdout


def commit_of(root, rev):
    """A commit by its short number."""
    try:
        return git(root, "rev-parse", "--short", "--verify", f"{rev}^{{commit}}").decode().strip()
    except Bad as why:
        raise Bad(f"{rev} is no commit: {why}") from why


def files_at(root, commit):
    """Path -> text, of the crates' files at a commit."""
    with tarfile.open(fileobj=io.BytesIO(git(root, "archive", commit, "crates"))) as archive:
        return {
            member.name: archive.extractfile(member).read().decode()
            for member in archive
            if member.isfile() and Path(member.name).suffix in COMMENT
        }


def plain(text, suffix):
    """A text without comments and layout."""
    return " ".join(COMMENT[suffix].sub("", text).split())


def outermost(items):
    """The items that stand in no other: a field is a part of its record."""
    end = 0
    for item in items:
        if item.place.name and item.line >= end:
            end = item.line + item.text.count("\n") + 1
            yield item


def statement_of(item):
    """What a law states: its text up to the first equation that proves it."""
    proof = re.search(rf"\n\s*{re.escape(item.place.name)}(?=\s)", item.text)
    return item.text[: proof.start()] if proof else item.text


def promise_of(item):
    """The head and the contract of a function, without its body."""
    body = BODY.search(item.text)
    return item.text[: body.start()] if body else item.text


def origins_in(text):
    """Name -> where it is brought in from, by the `use` lines of a file."""
    origins = {}
    for path, group, alias in USE.findall(text):
        for name in group.split(","):
            inner, _, renamed = name.strip().partition(" as ")
            if inner:
                origins[renamed or inner] = f"{path}.{inner}"
        if not group:
            origins[alias or re.split(r"\.|::", path)[-1]] = path
    return origins


def said(text, origins, suffix):
    """A text, with the origins of what it names."""
    bare = plain(text, suffix)
    used = {part for token in TOKEN.findall(bare) for part in (token, re.split(r"\.|::", token)[0])}
    return Said(bare, frozenset((name, origins[name]) for name in used & origins.keys()))


def told_by(path, text):
    """(crate, kind, name) -> what a file says under that name."""
    _, crate, folder, *inside = path.split("/")
    suffix = Path(path).suffix
    module = "/".join(inside).removesuffix(suffix)
    origins = origins_in(COMMENT[suffix].sub("", text))
    if folder == "proofs" and inside[-1] in figures.OF_FUNCTIONS:
        of_loops = " (loops)" if inside[-1] == figures.OF_LOOPS else ""
        yield (crate, "proofs of functions", "::".join(inside[:-1]) + of_loops), said(text, {}, suffix)
        return
    for item in items_of(path, text, suffix[1:]) if folder == "src" else ():
        if item.text.lstrip().startswith("pub "):
            name = "::".join(filter(None, (module, item.within, item.place.name)))
            is_function = FUNCTION.match(item.text)
            kind, stated = ("promises", promise_of(item)) if is_function else ("definitions", item.text.split("\n\n")[0])
            yield (crate, kind, name), said(stated, origins, suffix)
    for item in outermost(items_of(path, text, suffix[1:])) if folder in ("specs", "proofs") else ():
        kind, stated = ("definitions", item.text) if folder == "specs" else ("laws", statement_of(item))
        yield (crate, kind, f"{module}.{item.place.name}"), said(stated, origins, suffix)


def read(files):
    """(crate, kind, name) -> what is said, of all files."""
    return {key: found for path, text in files.items() if path.count("/") > 2 for key, found in told_by(path, text)}


def moved_house(before, after):
    """New key -> the crate that it left: a name that stands in another crate than before, with the same text."""
    left = {(*key[1:], found.text): key[0] for key, found in before.items() if key not in after}
    new = {key: found.text for key, found in after.items() if key not in before}
    return {key: left[*key[1:], text] for key, text in new.items() if (*key[1:], text) in left}


def moves_between(before, after):
    """crate -> kind -> what became of its names."""
    from_crate = moved_house(before, after)
    gone = {(crate, kind, name) for (_, kind, name), crate in from_crate.items()}
    found = {}
    for crate in sorted({crate for crate, _, _ in before.keys() | after.keys()}):
        for kind in KINDS:
            old = {key for key in before if key[:2] == (crate, kind)}
            new = {key for key in after if key[:2] == (crate, kind)}
            changed = {key for key in old & new if before[key].text != after[key].text}
            turned = {key for key in old & new - changed if before[key].origins != after[key].origins}
            found.setdefault(crate, {})[kind] = Moves(
                added=sorted(name for _, _, name in new - old - from_crate.keys()),
                changed=sorted(name for _, _, name in changed),
                turned=sorted(name for _, _, name in turned),
                removed=sorted(name for _, _, name in old - new - gone),
                came=sorted((from_crate[key], key[2]) for key in new & from_crate.keys()),
                stayed=len(old & new) - len(changed | turned),
            )
    return found


def times_of(log):
    """What a log tells: the seconds of the whole gate, and how much was proved in that run; none where it does not."""
    gate, share = GATE.search(log), SHARE.search(log)
    return f"{gate[1]} s" if gate else None, share[1] if share else None


def time_rows(before, after):
    """The table of times, with a place where a log was not named or does not tell one."""
    names = ("the gate, by the clock", "of which")
    logs = [times_of(log) if log is not None else (None,) * len(names) for log in (before, after)]
    yield "| | Before | After |"
    yield "|---|---|---|"
    for name, *told in zip(names, *logs):
        cells = (one if one is not None else "[say: what the log told, or not measured]" for one in told)
        yield f"| {name} | {' | '.join(cells)} |"


def signs(moves):
    """A cell of the table: how many came, changed and went."""
    counts = (("+", moves.added), ("~", moves.changed), ("@", moves.turned), ("-", moves.removed), (">", moves.came))
    return " ".join(f"{sign}{len(names)}" for sign, names in counts if names)


def named(kind, moves):
    """A line of names for each crate in which something of a kind moved."""
    for crate, kinds in moves.items():
        found = kinds[kind]
        parts = [("added", found.added), ("changed", found.changed), ("removed", found.removed)]
        parts.append(("with a name from elsewhere:", found.turned))
        for other in sorted({left for left, _ in found.came}):
            parts.append((f"from {other}:", [name for left, name in found.came if left == other]))
        line = "; ".join(f"{what} {', '.join(f'`{name}`' for name in names)}" for what, names in parts if names)
        if line:
            yield f"- {crate}: {line}"


LEGEND = (
    "`+` new, `~` changed, `@` the same text with a name that is brought in from elsewhere, `-` gone, `>` the same text, from "
    "another crate. A law is compared by what it states, the proof of a function as a whole."
)
PLACES = {
    "definitions": "[say: for each definition that changed or went, why it still says what the document says]",
    "promises": "[say: for each promise that changed or went, that it is no weaker, or what is given up and why]",
    "laws": "[say: which laws are new claims, and which only serve the proofs]",
    "proofs of functions": "[say: whether code changed under them, or the proofs alone]",
}


def note(name, base, to, moves, before, after):
    """The text of a note."""
    moved = {crate: kinds for crate, kinds in moves.items() if any(kinds.values())}
    still = [crate for crate in moves if crate not in moved]
    lines = [f"# {name}: [say: what this change is, in a few words]", ""]
    lines += [f"From {base} to {to}.", "", "[say: what it is for, and what a user sees of it]", "", "## What moved", ""]
    if moved:
        lines += [f"| Crate | {' | '.join(kind.capitalize() for kind in KINDS)} |", "|---|" + "---|" * len(KINDS)]
        lines += ["| " + " | ".join([crate, *(signs(kinds[kind]) for kind in KINDS)]) + " |" for crate, kinds in moved.items()]
        lines += ["", LEGEND, ""]
    for kind in KINDS:
        found = list(named(kind, moved))
        lines += [f"### {kind.capitalize()}", "", *(found or ["None moved."]), ""]
        lines += [PLACES[kind], ""] if found else []
    stayed = ", ".join(f"{sum(kinds[kind].stayed for kinds in moves.values())} {kind}" for kind in KINDS)
    nothing = f"Crates in which nothing moved: {', '.join(still) or 'none'}."
    lines += ["## What stayed", "", f"{stayed} are as they were. {nothing}", ""]
    lines += ["## The check's time", "", *time_rows(before, after), ""]
    return "\n".join(lines)


def empty_places(root):
    """The places of notes that nobody has filled in."""
    for file in sorted((root / FOLDER).glob("*.md")):
        if file.name == "README.md":
            continue
        for number, line in enumerate(file.read_text(encoding="utf-8").splitlines(), 1):
            for place in EMPTY_PLACE.findall(line):
                yield Fault(file.relative_to(root).as_posix(), number, f"is still empty: {place}")


def check(root):
    """Says which notes are not finished."""
    found = list(empty_places(root))
    notes = len(list((root / FOLDER).glob("*.md")))
    print(*found or [f"landings: {max(notes - 1, 0)} notes, none with an empty place"], sep="\n")
    return 1 if found else 0


def write(given):
    """Writes the note, and says where it is."""
    if not NAME.fullmatch(given.name):
        raise Bad(f"`{given.name}` is no name for a note: letters, digits and signs, as W2")
    file = given.root / FOLDER / f"{given.name}.md"
    if file.exists():
        raise Bad(f"{FOLDER}/{file.name} is there already, and a note is not written over")
    base, to = (commit_of(given.root, rev) for rev in (given.base, given.to))
    before, after = (log.read_text(errors="replace") if log else None for log in (given.before, given.after))
    moves = moves_between(read(files_at(given.root, base)), read(files_at(given.root, to)))
    file.parent.mkdir(parents=True, exist_ok=True)
    file.write_text(note(given.name, base, to, moves, before, after), encoding="utf-8")
    print(f"{FOLDER}/{file.name}: fill in its places, `[say: ..]`")


def main(arguments=None):
    parser = argparse.ArgumentParser(prog="landing", description=__doc__, formatter_class=argparse.RawDescriptionHelpFormatter)
    parser.add_argument("name", nargs="?", help="the note's name, as W2")
    parser.add_argument("--base", metavar="REV", help="the commit that the change starts from")
    parser.add_argument("--to", metavar="REV", default="HEAD", help="the commit that it ends with, HEAD where none is named")
    parser.add_argument("--before", metavar="LOG", type=Path, help="what `./test` printed at the base")
    parser.add_argument("--after", metavar="LOG", type=Path, help="and what it printed at the end")
    parser.add_argument("--check", action="store_true", help="write nothing, and fail where a note has an empty place")
    parser.add_argument("--root", type=Path, default=Path(__file__).resolve().parent.parent, metavar="DIR")
    given = parser.parse_args(arguments)
    if given.check and (given.name or given.base):
        parser.error("--check is asked alone")
    if not given.check and not (given.name and given.base):
        parser.error("a note needs its NAME and --base REV")
    try:
        if given.check:
            return check(given.root)
        write(given)
    except (Bad, OSError) as why:
        sys.exit(f"landing: {why}")
    return 0


if __name__ == "__main__":
    sys.exit(main())
