"""The drawing of the house says what crates.txt says, and can be read."""
import re
import unittest
from pathlib import Path

import house

CRATES = house.dependencies(Path(__file__).resolve().parent.parent.parent)
WIDE = {"a": [], "b": ["a"], "c": ["b"], "d": ["c"], "e": ["a", "d"], "f": ["a", "d"], "g": ["a", "e"]}
SMALL = {"a": [], "b": ["a", "kit"], "c": ["a", "b"], "d": ["a"], "e": ["a", "d", "c"], "f": ["b"], "g": []}


def under(pairs, name):
    """All that lines lead down to from a crate."""
    return {foot for upper, lower in pairs if upper == name for foot in {lower} | under(pairs, lower)}


def overlap(start, end, least, most):
    return start < most and least < end


class House(unittest.TestCase):
    def seen(self, listed):
        """What a drawing shows: its boxes with their names, and its lines with what they say and the points that they join."""
        drawn = house.drawing(listed)
        boxes = {name: tuple(map(int, box)) for *box, name in re.findall(
            r'<rect x="(\d+)" y="(\d+)" width="(\d+)" height="(\d+)" rx="4"/><text x="\d+" y="\d+" [^>]*>(\w+)</text>', drawn)}
        lines = {(upper, lower): [tuple(map(int, point.split(","))) for point in points.split()] for points, upper, lower in re.findall(
            r'<polyline points="([-\d, ]+)"><title>(\w+) stands on (\w+)</title></polyline>', drawn)}
        self.assertEqual((drawn.count("<text"), drawn.count("<polyline")), (len(boxes), len(lines)))
        width, height = map(int, re.search(r'viewBox="0 0 (\d+) (\d+)"', drawn).groups())
        corners = [(x + dx, y + dy) for x, y, wide, high in boxes.values() for dx in (0, wide) for dy in (0, high)]
        self.assertTrue(all(0 < x < width and 0 < y < height for x, y in sum(lines.values(), corners)))
        return boxes, lines

    def test_a_small_house(self):
        boxes, lines = self.seen(SMALL)
        self.assertEqual(set(boxes), set("abcdefg"))
        self.assertEqual(set(lines), {("b", "a"), ("c", "b"), ("d", "a"), ("e", "c"), ("e", "d"), ("f", "b")})

    def test_lines_lead_to_all_that_is_used_and_to_nothing_else(self):
        uses = {name: [used for used in words if used in CRATES] for name, words in CRATES.items()}
        boxes, lines = self.seen(CRATES)
        self.assertEqual(set(boxes), set(uses))
        for name in uses:
            self.assertEqual(under(lines, name), {foot for used in uses[name] for foot in {used} | under([(a, b) for a in uses for b in uses[a]], used)})
            for foot in uses[name]:
                others = [used for used in uses[name] if used != foot and foot in under(lines, used)]
                self.assertEqual((name, foot) in lines, not others)

    def test_each_line_goes_down_from_box_to_box(self):
        for listed in SMALL, WIDE, CRATES:
            boxes, lines = self.seen(listed)
            for (upper, lower), points in lines.items():
                (x, y, wide, high), (left, top, width, _) = boxes[upper], boxes[lower]
                self.assertEqual((points[0], points[-1]), ((x + wide // 2, y + high), (left + width // 2, top)))
                self.assertEqual(points, sorted(points, key=lambda point: point[1]))

    def test_no_box_covers_a_box_or_a_line(self):
        for listed in SMALL, WIDE, CRATES:
            boxes, lines = self.seen(listed)
            for name, (x, y, wide, high) in boxes.items():
                for other, (left, top, width, height) in boxes.items():
                    self.assertFalse(name != other and overlap(x, x + wide, left, left + width) and overlap(y, y + high, top, top + height))
                for points in lines.values():
                    for (x1, y1), (x2, y2) in zip(points, points[1:]):
                        self.assertFalse(overlap(min(x1, x2), max(x1, x2) + 1, x, x + wide) and overlap(y1, y2, y, y + high))


if __name__ == "__main__":
    unittest.main()
