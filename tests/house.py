"""Draws the house from crates.txt: `python3 tests/house.py > docs/house.svg`. A crate stands on those that its lines lead down to.

What a crate stands on by way of another has no line of its own."""
import re
from math import fsum
from pathlib import Path

WIDE, HIGH, GAP, FLOOR, MARGIN = 92, 26, 18, 58, 14


def dependencies(root):
    """Of each crate that crates.txt lists, those that its line names; a line may say that the crate is a static library."""
    return {name: words.split() for name, words in re.findall(r"^(\w+)(?: +staticlib)?:(.*)", (root / "crates.txt").read_text("utf-8"), re.M)}


def reached(listed, crate):
    """A crate and all that it depends on, of those that are listed."""
    found, todo = set(), [crate]
    while todo:
        name = todo.pop()
        if name in listed and name not in found:
            found.add(name)
            todo += listed[name]
    return found


def footings(listed):
    """For each crate those that it uses, but for what it has by way of another of them, and for the kit's."""
    return {name: [used for used in uses if used in listed and not any(used in reached(listed, other) - {other} for other in uses)]
            for name, uses in listed.items()}


def floors(on):
    """On which floor each crate stands: as near below those that stand on it as can be, and above all that it stands on."""
    lowest, highest = {}, {}
    for name in on:
        lowest[name] = 1 + max((lowest[foot] for foot in on[name]), default=-1)
    top = max(lowest.values())
    programs = {name for name in on if lowest[name] < top and not any(name in feet for feet in on.values())}
    for name in reversed(list(on)):
        above = [other for other in on if name in on[other] and other not in programs]
        highest[name] = min((highest[other] for other in above), default=top + 1) - 1
    return {name: 1 + max((highest[foot] for foot in on[name]), default=-1) if name in programs else highest[name] for name in on}


def ways(on, floor):
    """Each line as the places that it passes, one on each floor: a crate, and between two crates a gap that is kept for the line."""
    return [[name, *((name, foot, level) for level in range(floor[name] - 1, floor[foot], -1)), foot] for name in on for foot in on[name]]


def middles(on, floor, lines):
    """How far to the right each place has its middle: each floor is put in the order of what its lines lead to, below and above in turns.

    Sums are rounded once, so that every Python draws the same."""
    level = dict(floor)
    level.update((place, place[2]) for line in lines for place in line[1:-1])
    beside = {place: [] for place in level}
    for line in lines:
        for upper, lower in zip(line, line[1:]):
            beside[upper].append(lower)
            beside[lower].append(upper)
    at = {place: 50.0 * i for i, place in enumerate(level)}
    for turn in range(80):
        for here in sorted(set(level.values()), reverse=turn % 2):
            row = [place for place in level if level[place] == here]
            wanted = {place: fsum(at[other] for other in beside[place] or [place]) / max(len(beside[place]), 1) for place in row}
            row.sort(key=lambda place: (wanted[place], str(place)))
            steps = [0.0]
            for left, right in zip(row, row[1:]):
                steps.append(steps[-1] + GAP + WIDE * ((left in floor) + (right in floor)) / 2)
            start = fsum(wanted[place] - step for place, step in zip(row, steps)) / len(row)
            at.update((place, start + step) for place, step in zip(row, steps))
    left = min(middle - WIDE / 2 * (place in floor) for place, middle in at.items()) - MARGIN
    return {place: round(middle - left) for place, middle in at.items()}


def drawing(listed):
    """The drawing of the crates that are listed, each with what it uses, as an SVG."""
    on = footings(listed)
    floor = floors(on)
    lines = ways(on, floor)
    at = middles(on, floor, lines)
    width, height = max(middle + WIDE // 2 * (place in floor) for place, middle in at.items()) + MARGIN, FLOOR * max(floor.values()) + HIGH + 2 * MARGIN

    def top(level):
        return height - MARGIN - HIGH - FLOOR * level

    out = [f'<svg xmlns="http://www.w3.org/2000/svg" width="{width}" height="{height}" viewBox="0 0 {width} {height}" font-family="sans-serif" font-size="13">',
           "<title>The crates, and which stands on which</title>", f'<rect width="{width}" height="{height}" fill="#ffffff"/>',
           '<g fill="none" stroke="#8a8a8a" stroke-width="1.2">']
    for first, *passed, last in lines:
        points = [(at[first], top(floor[first]) + HIGH), *((at[gap], y) for gap in passed for y in (top(gap[2]), top(gap[2]) + HIGH)), (at[last], top(floor[last]))]
        out.append(f'<polyline points="{" ".join(f"{x},{y}" for x, y in points)}"><title>{first} stands on {last}</title></polyline>')
    out.append('</g>\n<g fill="#f3efe6" stroke="#5a5a5a" text-anchor="middle">')
    for name in on:
        out.append(f'<rect x="{at[name] - WIDE // 2}" y="{top(floor[name])}" width="{WIDE}" height="{HIGH}" rx="4"/>'
                   f'<text x="{at[name]}" y="{top(floor[name]) + 17}" fill="#1a1a1a" stroke="none">{name}</text>')
    return "\n".join([*out, "</g>", "</svg>", ""])


def house_is_drawn(root):
    """docs/house.svg is the drawing of crates.txt."""
    drawn = root / "docs/house.svg"
    if drawn.exists() and drawn.read_text("utf-8") == drawing(dependencies(root)):
        return []
    return ["docs/house.svg: it is not the drawing of crates.txt; `python3 tests/house.py > docs/house.svg` draws it"]


if __name__ == "__main__":
    print(drawing(dependencies(Path(__file__).resolve().parent.parent)), end="")
