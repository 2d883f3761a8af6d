"""The picture of the house: floors from the bottom up, a box for each crate, an arrow for each citation.

A box stands in the lowest row of its floor that is above all of the floor that it cites. An arrow that passes other
rows has a slot in each of them, so that none runs through a box. Order and places are found by steps that depend on
nothing but the crates, so the same crates give the same picture.
"""

import re
from html import escape
from typing import NamedTuple

WIDTH, SIDE, MARGIN = 1200, 104, 16
BOX_WIDTH, BOX_HEIGHT, SLOT, SPACE, GAP = 262, 88, 4, 12, 42
TOP, FLOOR_PADDING = 66, 20
MOST_IN_A_ROW = 3
PURPOSE_LINES, PURPOSE_CHARACTERS = 3, 40
STRAIGHT, TO_THE_MIDDLE = 12, 0.5
TINTS = ("#eef3f8", "#eef6ee", "#fbf5e6", "#f8eeee", "#f3eff8")
INKS = ("#2f5d8a", "#3b7a3b", "#94701a", "#9c4040", "#6a4a94")


class Box(NamedTuple):
    """A crate as drawn; sizes are its lines of code, of definitions and of proofs."""

    name: str
    floor: int
    purpose: str
    files: int
    sizes: tuple
    kit: tuple


class Slot(NamedTuple):
    """Where the arrow between two crates passes a row."""

    above: str
    below: str
    row: int


def rows_of(boxes, arrows):
    """The rows of boxes from the bottom up, each within one floor."""
    rows = []
    for floor in sorted({box.floor for box in boxes}):
        first, level = len(rows), {}
        for box in (box for box in boxes if box.floor == floor):
            here = max((level[name] + 1 for name in arrows[box.name] if name in level), default=first)
            while here < len(rows) and len(rows[here]) == MOST_IN_A_ROW:
                here += 1
            level[box.name] = here
            while len(rows) <= here:
                rows.append([])
            rows[here].append(box.name)
    return rows


def with_slots(rows, arrows):
    """The rows with a slot for each arrow that passes them, and each arrow as its stations from the top down."""
    row_of = {name: number for number, row in enumerate(rows) for name in row}
    rows, ways = [list(row) for row in rows], []
    for above, cited in arrows.items():
        for below in cited:
            slots = [Slot(above, below, row) for row in range(row_of[above] - 1, row_of[below], -1)]
            for slot in slots:
                rows[slot.row].append(slot)
            ways.append([above, *slots, below])
    return rows, ways


def neighbours(ways):
    """Station -> those next to it one row up, and one row down."""
    up, down = {}, {}
    for way in ways:
        for above, below in zip(way, way[1:]):
            down.setdefault(above, []).append(below)
            up.setdefault(below, []).append(above)
    return up, down


def crossings(rows, down):
    """How many pairs of arrows cross between rows."""
    total = 0
    for lower, row in zip(rows, rows[1:]):
        at = {station: number for number, station in enumerate(lower)}
        ends = [(n, at[end]) for n, station in enumerate(row) for end in down.get(station, ()) if end in at]
        total += sum(1 for a, x in ends for b, y in ends if a < b and x > y)
    return total


def ordered(rows, ways):
    """Each row in an order that makes few arrows cross: the best that is found from the rows as they are, and turned round."""
    up, down = neighbours(ways)
    found = [
        swapped(swept([row[::side] for row in rows], up, down, first), down) for side in (1, -1) for first in (0, 1)
    ]
    return min(found, key=lambda rows: crossings(rows, down))


def swept(rows, up, down, first):
    """The best of the orders by the mean place of neighbours, from below and from above in turn."""
    best, fewest = rows, crossings(rows, down)
    for turn in range(first, first + 24):
        near = up if turn % 2 else down
        at = {station: (n + 0.5) / len(row) for row in rows for n, station in enumerate(row)}
        new = []
        for row in rows if near is down else reversed(rows):
            ends = {s: [at[end] for end in near.get(s, ())] or [at[s]] for s in row}
            row = sorted(row, key=lambda s: sum(ends[s]) / len(ends[s]))
            at.update({station: (n + 0.5) / len(row) for n, station in enumerate(row)})
            new.append(row)
        rows = new if near is down else new[::-1]
        crossed = crossings(rows, down)
        if crossed < fewest:
            best, fewest = rows, crossed
    return best


def swapped(rows, down):
    """The rows after every swap of two neighbours in a row that makes fewer arrows cross."""
    rows, fewest = [list(row) for row in rows], crossings(rows, down)
    better = True
    while better:
        better = False
        for row in rows:
            for n in range(len(row) - 1):
                row[n], row[n + 1] = row[n + 1], row[n]
                crossed = crossings(rows, down)
                if crossed < fewest:
                    fewest, better = crossed, True
                else:
                    row[n], row[n + 1] = row[n + 1], row[n]
    return rows


def width(station):
    return SLOT if isinstance(station, Slot) else BOX_WIDTH


def spread(row, wanted, left, right):
    """Places for a row, in its order and apart, as near as can be to those wanted, each with its weight."""
    room = (right - left - sum(map(width, row))) / max(1, len(row) - 1)
    offsets, at = [], 0
    for before, station in zip([None, *row], row):
        at += (width(before) / 2 + min(SPACE, room) + width(station) / 2) if before else 0
        offsets.append(at)
    groups = []
    for station, offset in zip(row, offsets):
        place, weight = wanted[station]
        groups.append((place - offset, weight, 1))
        while len(groups) > 1 and groups[-2][0] > groups[-1][0]:
            (mean, weight, count), (other, more, members) = groups.pop(), groups.pop()
            groups.append(((mean * weight + other * more) / (weight + more), weight + more, count + members))
    low, high = left + width(row[0]) / 2, right - width(row[-1]) / 2 - offsets[-1]
    means = [max(low, min(high, mean)) for mean, _, count in groups for _ in range(count)]
    return {station: mean + offset for station, mean, offset in zip(row, means, offsets)}


def places(rows, ways):
    """Station -> the middle of its place, left to right: near its neighbours, so that arrows are steep and straight."""
    up, down = neighbours(ways)
    left, right = SIDE, WIDTH - MARGIN
    at = {}
    for row in rows:
        step = (right - left) / len(row)
        at.update(spread(row, {s: (left + step * (n + 0.5), 1) for n, s in enumerate(row)}, left, right))
    for turn in range(600):
        for row in rows if turn % 2 else reversed(rows):
            wanted = {s: mean_of(s, (*up.get(s, ()), *down.get(s, ())), at) for s in row}
            at.update(spread(row, wanted, left, right))
    return at


def mean_of(station, ends, at):
    """The mean place of the neighbours, and its weight: two slots of one arrow pull hardest, a box a little to the middle."""
    pulls = [(at[end], STRAIGHT if isinstance(station, Slot) and isinstance(end, Slot) else 1) for end in ends]
    if not isinstance(station, Slot):
        pulls.append(((SIDE + WIDTH) / 2, TO_THE_MIDDLE))
    weight = sum(weight for _, weight in pulls)
    return sum(place * weight for place, weight in pulls) / weight, weight


def heights(rows, floor_of):
    """The top of each row, the bands of the floors (floor, top, bottom), and the height of all."""
    tops, bands, at = [0] * len(rows), [], TOP
    for number in range(len(rows) - 1, -1, -1):
        floor = floor_of[rows[number][0]]
        if not bands or bands[-1][0] != floor:
            bands.append([floor, at, at])
            at += FLOOR_PADDING
        tops[number] = at
        at += BOX_HEIGHT + (GAP if number and floor_of[rows[number - 1][0]] == floor else FLOOR_PADDING)
        bands[-1][2] = at
    return tops, bands, at + MARGIN


def wrapped(text):
    """The lines of a purpose, without what is in brackets; one that is too long for its box ends with a clause that fits."""
    text = re.sub(r" \([^)]*\)", "", text)
    while True:
        lines, line = [], ""
        for word in text.split():
            if line and len(line) + 1 + len(word) > PURPOSE_CHARACTERS:
                lines.append(line)
                line = word
            else:
                line = f"{line} {word}".strip()
        lines.append(line)
        cut = max(text.rfind(sign, 0, len(text) - 1) for sign in (", ", ": ", "; "))
        if len(lines) <= PURPOSE_LINES or cut < 0:
            return lines[:PURPOSE_LINES]
        text = text[:cut] + "."


def text(x, y, said, kind, **more):
    extra = "".join(f' {name.replace("_", "-")}="{value}"' for name, value in more.items())
    return f'<text x="{x:.0f}" y="{y:.0f}" class="{kind}"{extra}>{escape(said, quote=False)}</text>'


def box_lines(box, x, top):
    """A crate's box: its name, what it is for, and how large it is."""
    left, right, ink = x - BOX_WIDTH / 2, x + BOX_WIDTH / 2, INKS[box.floor % len(INKS)]
    yield (
        f'<rect x="{left:.0f}" y="{top:.0f}" width="{BOX_WIDTH}" height="{BOX_HEIGHT}" rx="5" fill="#fff" stroke="{ink}"/>'
    )
    yield text(left + 9, top + 18, box.name, "name", fill=ink)
    files = f"{box.files} file{'s' if box.files != 1 else ''}"
    kit = f"on the kit's {', '.join(box.kit)} · " if box.kit else ""
    yield text(right - 9, top + 18, kit + files, "size", text_anchor="end")
    for number, line in enumerate(wrapped(box.purpose)):
        yield text(left + 9, top + 34 + 14 * number, line, "purpose")
    code, definitions, proofs = box.sizes
    yield text(left + 9, top + BOX_HEIGHT - 8, f"code {code} · definitions {definitions} · proofs {proofs}", "size")


def ports(ways, at):
    """(crate, way number) -> where an arrow leaves or meets its box: side by side, in the order of what is next on it."""
    found = {}
    for end, step in ((0, 1), (-1, -2)):
        of_box = {}
        for number, way in enumerate(ways):
            of_box.setdefault(way[end], []).append((at[way[step]], number))
        for name, others in of_box.items():
            apart = min(28, (BOX_WIDTH - 40) / len(others))
            for n, (_, number) in enumerate(sorted(others)):
                found[name, number] = at[name] + apart * (n - (len(others) - 1) / 2)
    return found


def arrow(way, number, at, port, top_of, ink):
    """An arrow: a curve from row to row, and straight down where it passes one."""
    def place(station):
        return at[station] if isinstance(station, Slot) else port[station, number]

    x, y = place(way[0]), top_of[way[0]] + BOX_HEIGHT
    drawn = [f"M{x:.1f} {y:.0f}"]
    for station in way[1:]:
        last = station is way[-1]
        to, end = place(station), top_of[station] - (7 if last else 0)
        half = (end - y) / 2
        drawn.append(f"C{x:.1f} {y + half:.0f} {to:.1f} {end - half:.0f} {to:.1f} {end:.0f}")
        x, y = to, end
        if not last:
            y = top_of[station] + BOX_HEIGHT
            drawn.append(f"V{y:.0f}")
    return f'<path d="{" ".join(drawn)}" stroke="{ink}" marker-end="url(#head)"/>'


STYLE = """<style>
text { font-family: Helvetica, Arial, "Liberation Sans", sans-serif }
.title { font-size: 19px; font-weight: bold; fill: #333 } .note { font-size: 12px; fill: #555 }
.floor { font-size: 16px; font-weight: bold } .name { font-size: 14px; font-weight: bold }
.purpose { font-size: 11px; fill: #333 } .size { font-size: 10px; fill: #666 }
path { fill: none; stroke-width: 1.5 } marker path { fill: #555; stroke: none }
</style>
<defs>
<marker id="head" viewBox="0 0 8 8" refX="1" refY="4" markerWidth="8" markerHeight="8" orient="auto" markerUnits="userSpaceOnUse">
<path d="M0 0L8 4L0 8z"/></marker>
</defs>"""
NOTE = (
    "An arrow runs from a crate to one that it cites, and downward always. "
    "Where other arrows lead there already, it is left out. Sizes are lines."
)


def draw(floors, boxes, arrows):
    """The picture: boxes in the order of crates.txt, and crate -> the crates that an arrow goes to."""
    floor_of = {box.name: box.floor for box in boxes}
    plain = rows_of(boxes, arrows)
    rows, ways = with_slots(plain, arrows)
    rows = ordered(rows, ways)
    at = places(rows, ways)
    tops, bands, height = heights(plain, floor_of)
    top_of = {station: tops[number] for number, row in enumerate(rows) for station in row}
    lines = [f'<svg xmlns="http://www.w3.org/2000/svg" width="{WIDTH}" height="{height}" viewBox="0 0 {WIDTH} {height}">']
    lines += [STYLE, f'<rect width="{WIDTH}" height="{height}" fill="#fff"/>']
    lines.append(text(MARGIN, 28, "The house", "title"))
    lines.append(text(MARGIN, 50, NOTE, "note"))
    for floor, top, bottom in bands:
        size = f'x="{MARGIN / 2:.0f}" y="{top}" width="{WIDTH - MARGIN}" height="{bottom - top}"'
        lines.append(f'<rect {size} fill="{TINTS[floor % len(TINTS)]}" stroke="#fff" stroke-width="4"/>')
        lines.append(text(MARGIN + 4, (top + bottom) / 2 + 5, floors[floor], "floor", fill=INKS[floor % len(INKS)]))
    port = ports(ways, at)
    lines += [arrow(way, n, at, port, top_of, INKS[floor_of[way[0]] % len(INKS)]) for n, way in enumerate(ways)]
    for box in boxes:
        lines += box_lines(box, at[box.name], top_of[box.name])
    return "\n".join([*lines, "</svg>", ""])
