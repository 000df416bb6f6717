"""A picture of an atlas (document 02, T-07), read line by line and by an XML parser. What does not hold is an AssertionError."""
import itertools
import re
import xml.etree.ElementTree
from typing import NamedTuple

GROUND, USED, FREE = "#282828", "#4646b4", "#323232"
SVG = "http://www.w3.org/2000/svg"
NUMBER = "(0|[1-9][0-9]*)"
FIRST = re.compile(f'<svg xmlns="{SVG}" viewBox="0 0 {NUMBER} {NUMBER}">')
RECT = re.compile(f'<rect x="{NUMBER}" y="{NUMBER}" width="{NUMBER}" height="{NUMBER}" fill="({GROUND}|{USED}|{FREE})"/>')


class Part(NamedTuple):
    x: int
    y: int
    width: int
    height: int
    fill: str

    def contains(self, left, top, right, bottom):
        return self.x <= left <= right <= self.x + self.width and self.y <= top <= bottom <= self.y + self.height

    def meets(self, other):
        """They have a pixel in common."""
        return (max(self.x, other.x) < min(self.x + self.width, other.x + other.width)
                and max(self.y, other.y) < min(self.y + self.height, other.y + other.height))


class Picture:
    """The atlas sides, and the parts in their order."""

    def __init__(self, text):
        first, *rects, last, behind = text.decode("ascii").split("\n")
        sides, found = FIRST.fullmatch(first), [RECT.fullmatch(line) for line in rects]
        assert sides and all(found) and (last, behind) == ("</svg>", ""), text[:300]
        self.width, self.height = map(int, sides.groups())
        drawn = [Part(*map(int, rect.groups()[:4]), rect[5]) for rect in found]
        assert drawn == parsed(text, f"0 0 {self.width} {self.height}"), "an XML parser reads it otherwise"
        assert drawn[:1] == [Part(0, 0, self.width, self.height, GROUND)], drawn[:1]
        self.parts = drawn[1:]
        self.ask()

    def ask(self):
        """Each part is inside and used or free, a free one not 0 wide; and no two share a pixel."""
        for part in self.parts:
            assert part.x + part.width <= self.width and part.y + part.height <= self.height, part
            assert part.fill == USED or part.fill == FREE and part.width, part
        by_x = sorted(part for part in self.parts if part.width and part.height)
        for i, part in enumerate(by_x):
            behind = itertools.takewhile(lambda other: other.x < part.x + part.width, itertools.islice(by_x, i + 1, None))
            assert not any(map(part.meets, behind)), part

    def used(self):
        return [part for part in self.parts if part.fill == USED]

    def area(self):
        """That of the used parts, in pixels."""
        return sum(part.width * part.height for part in self.used())

    def shows(self, rectangle):
        """It lies in a used part."""
        return any(part.contains(*rectangle) for part in self.used())


def parsed(text, box):
    """The rectangles, as an XML parser has them: a flat list with five attributes each."""
    root = xml.etree.ElementTree.fromstring(text)
    assert root.tag == f"{{{SVG}}}svg" and root.attrib == {"viewBox": box}, (root.tag, root.attrib)
    for child in root:
        assert child.tag == f"{{{SVG}}}rect" and tuple(child.keys()) == Part._fields and len(child) == 0, child.attrib
    return [Part(*(int(child.get(name)) for name in Part._fields[:4]), child.get("fill")) for child in root]
