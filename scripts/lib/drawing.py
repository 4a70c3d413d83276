"""A picture in SVG as it is read by a parser of XML, which knows nothing of the program that drew it.

    python3 -B scripts/lib/drawing.py < PICTURE

fails where it is no XML, or has an element beyond its view box.
"""
import re
import sys
import xml.etree.ElementTree as tree

SVG = "{http://www.w3.org/2000/svg}"


def fail(why):
    """Ends the try."""
    sys.exit(f"drawing: {why}")


def wanted(what, is_so, should_be):
    """Fails where something is otherwise than it should be."""
    if is_so != should_be:
        fail(f"{what}: {is_so!r}, and not {should_be!r}")


def parsed(text):
    """What a text is, if it is XML."""
    try:
        return tree.fromstring(text)
    except tree.ParseError as fault:
        fail(f"no XML: {fault}")


class Element:
    """An element of a picture: its kind, its numbers, its colours, and what it says."""

    def __init__(self, node):
        self.kind = node.tag.removeprefix(SVG)
        self.ink = node.get("fill")
        self.says = "".join(node.itertext())
        numbers = {name: int(value) for name, value in node.items() if re.fullmatch(r"-?\d+", value)}
        self.x, self.y = numbers.get("x", numbers.get("cx")), numbers.get("y", numbers.get("cy"))
        self.wide, self.high = numbers.get("width", 0), numbers.get("height", 0)
        self.right, self.foot = (self.x or 0) + self.wide, (self.y or 0) + self.high
        self.path = re.findall(r"([MLHV])(\d+)(?: (\d+))?", node.get("d", ""))

    def places(self):
        """The places that it touches, from the left and from the top."""
        if self.kind == "path":
            across = [int(one) for step, one, _ in self.path if step in "MLH"]
            down = [int(one if step == "V" else two) for step, one, two in self.path if step in "MLV"]
            return across, down
        return [self.x, self.right], [self.y, self.foot]


class Drawing:
    """A picture: its elements in order, each within its view box."""

    def __init__(self, node):
        wanted("the picture", node.tag, f"{SVG}svg")
        left, top, wide, high = map(int, node.get("viewBox").split())
        wanted("the view box", (left, top, 5 * int(node.get("width")), 5 * int(node.get("height"))), (0, 0, wide, high))
        self.elements = [Element(child) for child in node]
        for element in self.elements:
            across, down = element.places()
            if min(across) < 0 or max(across) > wide or min(down) < 0 or max(down) > high:
                fail(f"{element.kind} {element.says!r} at {across}, {down} lies beyond {wide} x {high}")

    def texts(self, left_out=None):
        """What it says, but for texts of this form."""
        said = [element.says for element in self.elements if element.kind == "text"]
        return [text for text in said if not left_out or not re.fullmatch(left_out, text)]


if __name__ == "__main__":
    Drawing(parsed(sys.stdin.read()))
