"""Rules and citations of rules: what docs/RULES.md numbers, and how code, definitions and papers cite it.

A rule is a line of RULES.md that begins with its bold number (`**4.7 Strayed.**`) or a table row whose first cell is the number
(`| 4.7 | Strayed | .. |`). A demand is numbered D1, D3a and so on.
"""

import re

from house import Fault

RULES = "docs/RULES.md"

IDENT = r"(?:\d+\.\d+|D\d+[a-z]?)"
SECTION = re.compile(r"## (\d+) ")
RULE = re.compile(rf"(?:\*\*|\|\s*)({IDENT})(?![\w.])")

# A gap may be the end of a line, with the sign of a comment on the next: a citation may run on.
GAP = r"(?:[ \t]+|[ \t]*\n[ \t]*(?:(?://[/!]?|--|\*)[ \t]*)?)"
AND = rf"(?:,{GAP}(?:(?:and|or){GAP})?|{GAP}(?:and|or|to){GAP})"
CITED = re.compile(
    rf"\b(?:RULES(?:\.md)?`?,?|[Rr]ules?){GAP}"
    rf"(?:(?:sections?{GAP})?({IDENT}(?:{AND}{IDENT})*)|sections?{GAP}(\d+(?:{AND}\d+)*))"
)


def plain_lines(text):
    """The lines outside fenced blocks, each with its number."""
    fenced = False
    for number, line in enumerate(text.splitlines(), 1):
        if line.startswith("```"):
            fenced = not fenced
        elif not fenced:
            yield number, line


def read_rules(text, faults):
    """The line of each rule, in their order, and the sections."""
    places, sections, last = {}, set(), 0
    section = 0
    for number, line in plain_lines(text):
        heading = SECTION.match(line)
        if heading:
            here = int(heading[1])
            if here != section + 1:
                faults.append(Fault(RULES, number, f"section {here} follows section {section}"))
            section, last = here, 0
            sections.add(str(here))
            continue
        found = RULE.match(line)
        if not found:
            continue
        rule = found[1]
        if rule in places:
            faults.append(Fault(RULES, number, f"rule {rule} is numbered twice, first on line {places[rule]}"))
            continue
        places[rule] = number
        if rule.startswith("D"):
            continue
        major, minor = map(int, rule.split("."))
        if major != section:
            faults.append(Fault(RULES, number, f"rule {rule} stands in section {section}"))
        elif minor != last + 1:
            faults.append(Fault(RULES, number, f"rule {rule} stands where {section}.{last + 1} is due"))
        last = minor
    return places, sections


def cited_in(text, rules):
    """The rules that a text cites by their numbers, `9.7 to 9.11` with all between; a section as a whole is no rule."""
    order = list(rules)
    found = set()
    for cited in CITED.finditer(text):
        for first, last in re.findall(rf"({IDENT})(?:{GAP}to{GAP}({IDENT}))?", cited[1] or ""):
            if first in rules and (last or first) in rules:
                found.update(order[order.index(first) : order.index(last or first) + 1])
    return found
