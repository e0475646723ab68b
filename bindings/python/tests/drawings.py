"""What the tests of drawings share: the largest size, and the texts, sizes, and shapes of a drawing."""
import re
import xml.etree.ElementTree as ET

from samples import even
from township._drawing.subject import Outline

SVG = "{http://www.w3.org/2000/svg}"

#: The largest drawing, in bytes.
LARGEST = 200_000

#: All places of a township that are alternately in the land and not.
CHECKERED = {number: [0x55555555 << row % 2 for row in range(32)] for number in range(1, 37)}

#: The millimeters of 6 points, of which 72 are an inch.
SIX_POINTS = 6 * 25.4 / 72


def texts(drawing):
    """The texts of a drawing, in its order."""
    return [each.text for each in ET.fromstring(drawing).iter(f"{SVG}text")]


def scale_of(group):
    """How many millimeters a unit in a group has."""
    found = re.search(r"scale\(([\d.]+)\)", group.get("transform", ""))
    return float(found[1]) if found else 1.0


def sizes(element, size=0.0, unit=1.0):
    """The size of each text in an element, in millimeters."""
    unit, size = unit * scale_of(element), float(element.get("font-size", size))
    if element.tag == f"{SVG}text":
        yield size * unit, element.text
    for child in element:
        yield from sizes(child, size, unit)


def tract(name, description, index=0, acres=None, plat=None):
    """A tract with the land of a description."""
    return Outline((plat or even()).land(description).rows, name, acres, index)


def filled(path, width, height):
    """The picture of closed loops, filled by the even-odd rule: a place is inside if an odd number of sides is west."""
    sides = []
    for x, y, moves in re.findall(r"M(\d+) (\d+)([^M]*)z", path):
        x, y, first = int(x), int(y), int(y)
        for kind, length in re.findall(r"([hv])(-?\d+)", moves):
            if kind == "h":
                x += int(length)
            else:
                sides.append((x, *sorted((y, y + int(length)))))
                y += int(length)
        sides.append((x, *sorted((y, first))))
    inside = lambda column, row: sum(x <= column and top <= row < end for x, top, end in sides) % 2
    return [sum(inside(column, row) << column for column in range(width)) for row in range(height)]
