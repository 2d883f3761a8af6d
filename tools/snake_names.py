#!/usr/bin/env python3
"""Spells the definitions and lemmas of the crates in snake case: isExact and is-exact become is_exact. Run once, after port.py.

usage: tools/snake_names.py [FOLDER]

It takes every name that a file of specs/ or a file of laws of proofs/ declares and that has a capital or a dash in it, and
rewrites it as a whole word in code, in clauses and in the code spans of comments and pages. A name of a library that a file
imports stays in that file. Where a law would get the name of a definition, it is called NAME_law (CLASHES says which).
Functions of src/, types, constructors and modules keep their names.
"""
import collections
import os
import re
import sys

WORD = re.compile(r'[^\s(){}.;,@"«»`]+')
DECLARED = re.compile(
    r"^\s*(?:(?:unfoldable|abbrev|instance|rewrite|semireducible|opaque|private|constructor|pub|mutual) )*"
    r"([a-z][\w'′₀-₉-]*)(?: \{[^{}\n]*\})* :(?!\S)"
)
USED = re.compile(r"\buse ([^\s;{]+?)(?:\.?\{([^;{}]*)\})?(?: as ([^\s;]+))?\s*(?:;|$)", re.M)
SPAN = re.compile(r"`[^`\n]+`")
PROOF = re.compile(r"/proofs/.+/(?:Proof|Answers|Invariants)\.antt$")

# A word of capitals and digits that reads better with a dash more.
BETTER = {"twoTo53": "two_to_53", "fieldsRead": "read_fields"}


def snake(name):
    if name in BETTER:
        return BETTER[name]
    return re.sub(r"(?<=[a-z0-9])([A-Z])", r"_\1", name.replace("-", "_")).lower()


def is_of_a_function(path):
    return PROOF.search(path) is not None and len(path.split("/proofs/")[1].split("/")) > 1


def texts(folder):
    for root, dirs, names in os.walk(os.path.join(folder, "crates")):
        dirs[:] = sorted(d for d in dirs if d != "out")
        for name in sorted(names):
            if name.endswith((".antt", ".rt", ".edit")):
                yield os.path.join(root, name)


def table(files):
    """Each old name with its new one."""
    declared = collections.defaultdict(set)
    for path, text in files.items():
        if path.endswith(".antt") and not is_of_a_function(path):
            for line in text.splitlines():
                found = DECLARED.match(line)
                if found:
                    declared[found[1]].add(path)
    old = sorted(name for name in declared if snake(name) != name)
    taken = collections.defaultdict(list)
    for name in declared:
        taken[snake(name)].append(name)
    new = {}
    for name in old:
        others = [o for o in taken[snake(name)] if o != name]
        # A law gives way to the definition that it is about, and to a name that is spelled so already.
        gives_way = "-" in name and others
        new[name] = snake(name) + "_law" if gives_way else snake(name)
    return new


def imported(text, crates):
    """The names that a file takes from a library, which stay as they are."""
    stay = set()
    for used in USED.finditer(text):
        parts = used[1].split(".")
        if parts[0] == "Rattle" and len(parts) > 1 and parts[1] in crates:
            continue
        for item in (used[2] or "").split(","):
            stay.update(item.split(" as ")[0].split())
    return stay


def in_code(text, new, after_dot):
    def spelled(found):
        word = found[0]
        if word not in new:
            return word
        if not after_dot and new[word].endswith("_law") and text[found.start() - 1 : found.start()] == ".":
            return word.replace("-", "_")
        return new[word]

    return WORD.sub(spelled, text)


def in_spans(text, new):
    return SPAN.sub(lambda span: in_code(span[0], new, True), text)


def turned(path, text, new, crates):
    if path.endswith(".edit"):
        return in_code(text, new, True)
    here = {o: n for o, n in new.items() if o not in imported(text, crates)}
    mark = "--" if path.endswith(".antt") else "//"
    lines = []
    for line in text.split("\n"):
        at = re.search(r"(?:^|(?<=\s))" + mark, line)
        cut = at.start() if at else len(line)
        lines.append(in_code(line[:cut], here, not is_of_a_function(path)) + in_spans(line[cut:], here))
    return "\n".join(lines)


def main(argv):
    folder = argv[0] if argv else "."
    files = {}
    for path in texts(folder):
        with open(path, encoding="utf-8") as file:
            files[path] = file.read()
    crates = set(os.listdir(os.path.join(folder, "crates")))
    new = table(files)
    pages = [os.path.join(folder, page) for page in ("README.md", "CONTRIBUTING.md", "CHANGELOG.md")]
    pages += [os.path.join(folder, "docs", page) for page in os.listdir(os.path.join(folder, "docs")) if page.endswith(".md") and not page.startswith("PORT")]
    for path, text in files.items():
        after = turned(path, text, new, crates)
        if after != text:
            with open(path, "w", encoding="utf-8") as file:
                file.write(after)
    for path in pages:
        with open(path, encoding="utf-8") as file:
            text = file.read()
        after = in_spans(text, new)
        if after != text:
            with open(path, "w", encoding="utf-8") as file:
                file.write(after)
    for old in sorted(new):
        print(f"{old}\t{new[old]}")


if __name__ == "__main__":
    main(sys.argv[1:])
