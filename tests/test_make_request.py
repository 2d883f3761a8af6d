"""make_request.py packs a description as document 01's stream is packed, and names the line at fault."""

import pathlib
import struct
import sys
import unittest

ROOT = pathlib.Path(__file__).parents[1]
sys.path.insert(0, str(ROOT / "tools"))
import make_request as tool  # noqa: E402

SHORT = "budget 7\nagent 0.5 0\nfrom 0s 0 0\nto 10s 10 0\n"


def unpacked(stream):
    """Fields read bit by bit, by the widths of rules 14.1 to 14.12."""
    bits = "".join(f"{byte:08b}" for byte in stream)
    at = 0

    def take(width):
        nonlocal at
        at += width
        assert at <= len(bits), "the stream is short"
        return int(bits[at - width:at], 2)

    def double():
        return struct.unpack(">d", take(64).to_bytes(8, "big"))[0]

    def waypoint():
        return take(50), double(), double()

    edition, count, budget = take(4), take(6), take(16)
    agent, start, goal = (double(), double()), waypoint(), waypoint()
    obstacles = []
    for _ in range(count):
        numbers = double(), double(), double()
        obstacles.append((numbers, [waypoint() for _ in range(take(9))]))
    assert len(bits) - at < 8 and "1" not in bits[at:], "the fill is wrong"
    return edition, budget, agent, start, goal, obstacles


class Packed(unittest.TestCase):
    def test_crossing_is_the_programs_stored_input(self):
        text = (ROOT / "examples" / "crossing.txt").read_text()
        stored = (ROOT / "crates" / "plan" / "stdin").read_bytes()
        self.assertEqual(tool.packed(tool.parsed(text)), stored)

    def test_every_field_is_in_its_place(self):
        text = SHORT + "obstacle 0.25 0.5 2\nat 1.5s -1 2\nat 2000ms 3 -4e3\nobstacle 1 1 1\n"
        self.assertEqual(
            unpacked(tool.packed(tool.parsed(text))),
            (
                1,
                7,
                (0.5, 0.0),
                (0, 0.0, 0.0),
                (10**10, 10.0, 0.0),
                [
                    ((0.25, 0.5, 2.0), [(1_500_000_000, -1.0, 2.0), (2_000_000_000, 3.0, -4000.0)]),
                    ((1.0, 1.0, 1.0), []),
                ],
            ),
        )

    def test_minus_zero_keeps_its_sign(self):
        request = tool.parsed(SHORT.replace("from 0s 0 0", "from 0s -0 0"))
        start = unpacked(tool.packed(request))[3]
        self.assertEqual(struct.pack(">d", start[1]), struct.pack(">d", -0.0))

    def test_units(self):
        for word, ns in (("0s", 0), ("1ns", 1), ("3us", 3000), ("0.000000001s", 1), ("1e3s", 10**12)):
            self.assertEqual(tool.nanoseconds(word, 1), ns)


class Mistakes(unittest.TestCase):
    def fails(self, text, line, what):
        with self.assertRaises(tool.Mistake) as caught:
            tool.parsed(text)
        self.assertEqual(caught.exception.line, line)
        self.assertIn(what, str(caught.exception))

    def test_the_line_at_fault(self):
        self.fails(SHORT + "obstacle 1 1\n", 5, "FOOTPRINT FOLLOW CONFLICT")
        self.fails(SHORT + "\nwall 1 2\n", 6, "`wall` is none of")
        self.fails(SHORT + "at 0s 0 0\n", 5, "before any `obstacle`")
        self.fails(SHORT + "budget 3\n", 5, "line 1 already")
        self.fails(SHORT.replace("10 0", "ten 0"), 4, "`ten` is not a number")

    def test_what_is_missing(self):
        self.fails("budget 1\n", 0, "agent FOOTPRINT FOLLOW")

    def test_what_the_stream_cannot_hold(self):
        self.fails(SHORT.replace("budget 7", "budget 65536"), 1, "65535")
        self.fails(SHORT.replace("budget 7", "budget -1"), 1, "not a whole number")
        self.fails(SHORT.replace("10s", "-1s"), 4, "is not from 0")
        self.fails(SHORT.replace("10s", "1125899906842624ns"), 4, "is not from 0")
        self.fails(SHORT + "obstacle 1 1 1\n" * 64, 68, "64th obstacle")

    def test_times(self):
        self.fails(SHORT.replace("10s", "10"), 4, "needs a unit")
        self.fails(SHORT.replace("10s", "0.5ns"), 4, "no whole number")
        self.fails(SHORT.replace("10s", "xs"), 4, "not a number with a unit")


if __name__ == "__main__":
    unittest.main()
