"""The worked examples of hints are the same in `crates/worked` and in the oracle: the same agents, carts and hints."""

import pathlib
import re
import unittest

ROOT = pathlib.Path(__file__).parents[1]
FOOTPRINTS = {"small": "HALF", "middling": "FIVE_EIGHTHS", "large": "TWO_AND_A_HALF"}

# In the definitions: a number, a waypoint, the question, a hint, and a hint with its contour.
NUMBER = r"\((?:metres|metres_back|eighths) \d+\)|nought"
WAYPOINT = rf"\(on ({NUMBER}) ({NUMBER}) (\d+)\)"
QUESTION = rf"(walked|asked) (\w+) \(agent ([\d_]+) (\d+)\) {WAYPOINT} {WAYPOINT}".replace(r"(\d+)\)", r"([\d_]+)\)")
FIELD = re.compile(rf"^  pub [\w-]+ : .*?{QUESTION}(.*?)(?=^  (?:pub|--)|^\S|\Z)", re.M | re.S)
HINT = re.compile(rf"\bhint ({NUMBER}) ([\d_]+)")
RANKED = re.compile(rf"\branked_at \((lasting|early) ([\d_]+)\) ({NUMBER}) ([\d_]+)")

# In the oracle.
EXAMPLE = re.compile(
    r'example\(\s*"([^"]+)",\s*agent\(([\d_]+), (\d+)\),\s*(\w+),\s*\[(.*?)\],\s*&\[(.*?)\],\s*Branch', re.S
)
TRIPLE = re.compile(r"\(([-\d_.]+), ([-\d_.]+), ([-\d_.]+)\)")


def numbers_of_refusals():
    """The number of each refusal, by the names of the enum (`refusal_number`)."""
    text = (ROOT / "crates" / "refusals" / "specs" / "Names.antt").read_text()
    numbers = dict(re.findall(r"^([A-Z_]+) = (\d+)$", text, re.M))
    return {name: int(numbers[constant]) for name, constant in re.findall(r"^refusal_number (\w+) = ([A-Z_]+)$", text, re.M)}


def number(text):
    """What a number of the definitions stands for."""
    if text == "nought":
        return 0.0
    kind, value = text.strip("()").split()
    return {"metres": 1.0, "metres_back": -1.0, "eighths": 0.125}[kind] * int(value)


def whole(text):
    return int(text.replace("_", ""))


def defined():
    """For each question of the definitions what is found, for some what is ranked, with the contours, and the number of a refusal."""
    text = (ROOT / "crates" / "hint_examples" / "specs" / "Worked.antt").read_text()
    found, ranked, told = {}, {}, {}
    for call, kind, metres, start, x, y, s, u, v, t, answer in FIELD.findall(text):
        cart = ((whole(s), number(x), number(y)), (whole(t), number(u), number(v)))
        question = (whole(metres), whole(start), FOOTPRINTS[kind], cart)
        by_number = re.match(r"\) ≡ (\d+)\s*$", answer)
        if by_number:
            told[question] = int(by_number[1])
        elif call == "walked":
            refused = re.search(r"≡ Refused Refusals\.(\w+)", answer)
            hints = [(number(at), whole(until)) for at, until in HINT.findall(answer)]
            found[question] = numbers_of_refusals()[refused[1]] if refused else hints
        else:
            sign = {"lasting": 1, "early": -1}
            hints = RANKED.findall(answer)
            ranked[question] = [(sign[s] * whole(contour), number(at), whole(until)) for s, contour, at, until in hints]
    return found, ranked, told


def run():
    """For each question of the oracle its hints in the order of finding, with their contours; how many there are, and the refusals."""
    text = (ROOT / "oracle" / "planner" / "src" / "worked.rs").read_text()
    examples = {}
    for _, metres, start, footprint, cart, hints in EXAMPLE.findall(text):
        cart = tuple((whole(s), float(x), float(y)) for s, x, y in TRIPLE.findall(cart))
        hints = [(whole(contour), float(at), whole(until)) for at, until, contour in TRIPLE.findall(hints)]
        examples[(whole(metres), whole(start), footprint, cart)] = hints
    return examples, len(re.findall(r"(?<!fn )\bexample\(\n", text)), re.findall(r"found: Err\((\d+)\)", text)


class Worked(unittest.TestCase):
    def test_the_oracle_has_the_examples_of_the_definitions(self):
        found, _, _ = defined()
        examples, count, _ = run()
        self.assertEqual(len(examples), count)
        self.assertGreater(count, 20)
        self.assertEqual(set(found), set(examples))

    def test_the_hints_are_the_same(self):
        found, ranked, told = defined()
        examples, _, refused = run()
        self.assertEqual({question: hints for question, hints in found.items() if isinstance(hints, int)}, told)
        self.assertEqual([str(hints) for hints in told.values()], refused)
        for question, hints in found.items():
            with self.subTest(question):
                plain = [(at, until) for _, at, until in examples[question]]
                self.assertEqual([] if isinstance(hints, int) else hints, plain)
        self.assertGreater(len(ranked), 5)
        for question, hints in ranked.items():
            with self.subTest(question):
                self.assertEqual(hints, sorted(examples[question]))


if __name__ == "__main__":
    unittest.main()
