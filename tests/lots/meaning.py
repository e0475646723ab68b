"""What a description means on the plat of a lot table, and its acreage and canonical text by the table.

`land_of(table, items)` is the land: the places of each section, or raises `Refused` with the first fault (61 to 68).
"""

from fractions import Fraction

from descriptions import All, Heading, Lots, Part, Refused, Sections
from places import NOMINAL, SECTIONS, part, size, spelled, written_parts

#: The refusal of land that the table lacks the acreage of.
LACKING = 94

#: The refusal of land that is not on the plat.
NOT_THERE = 68


def land_of(table, items):
    """The places of each section that the items of a description name. Raise `Refused` if one is at fault."""
    land = {}
    section = 0
    for item in items:
        fault, named = _named(table, section, land, item)
        if fault is not None:
            raise Refused(*fault)
        if isinstance(item, Sections):
            section = item.first
        for number, places in named:
            land[number] = land.get(number, 0) | places
    return land


def _named(table, section, land, item):
    """The first fault of an item, or None; and the places of each section that it names."""
    if isinstance(item, Part):
        return _part(table.section(section), section, land, item)
    if isinstance(item, Lots):
        return _lots(table.section(section).lots, section, land, item)
    if isinstance(item, Sections):
        return _sections(table, land, item)
    if isinstance(item, All):
        there = table.section(section).there
        fault = (NOT_THERE, item.at) if not there else (67, item.at) if land.get(section) else None
        return fault, [(section, there)]
    return ((61, item.at) if item.township != table.township else None), []


def _part(here, section, land, item):
    places = part(item.steps)
    if places is None:
        return (65, item.at), []
    # Of the faults of one item, an overlap comes last.
    for number, others in ((66, here.in_lots), (NOT_THERE, here.missing), (67, land.get(section, 0))):
        if places & others:
            return (number, item.at), []
    return None, [(section, places)]


def _lots(lots, section, land, item):
    if item.last < item.first:
        return (63, item.last_at), []
    if item.first not in lots:
        return (64, item.at), []
    if not all(number in lots for number in range(item.first, item.last + 1)):
        return (64, item.last_at), []
    places = 0
    for number in range(item.first, item.last + 1):
        places |= lots[number].places
    return ((67, item.at) if places & land.get(section, 0) else None), [(section, places)]


def _sections(table, land, item):
    for number, at in ((item.first, item.at), (item.last, item.last_at)):
        if number not in SECTIONS:
            return (62, at), []
    if item.last < item.first:
        return (63, item.last_at), []
    if not item.whole:
        return None, []
    named = [(number, table.section(number).there) for number in range(item.first, item.last + 1)]
    if not all(there for _, there in named):
        return (NOT_THERE, item.at if not named[0][1] else item.last_at), []
    if any(number in land for number, _ in named):
        return (67, item.at), []
    return None, named


def area_of(table, land):
    """The exact area of land in acres. Raise `Refused` if the table lacks a lot of it."""
    hundredths, others = 0, 0
    for section, places in sorted(land.items()):
        here = table.section(section)
        others += size(places & ~here.in_lots)
        for number, lot in sorted(here.lots.items()) if places & here.in_lots else ():
            if places & lot.places:
                if lot.hundredths is None:
                    raise Refused(LACKING, 100 * section + number)
                hundredths += lot.hundredths
    return Fraction(2 * hundredths + NOMINAL * others, 200)


def rounded(area):
    """An area in hundredths of an acre, rounded half up."""
    return (200 * area.numerator + area.denominator) // (2 * area.denominator)


def text_of(table, land):
    """The canonical text of land."""
    if not land:
        return ""
    number, north_south, range_number, east_west = table.township
    lines = ";\n".join(f"sec. {section}, {_list_of(table.section(section), places)}"
                       for section, places in sorted(land.items()))
    return f"T. {number} {north_south}., R. {range_number} {east_west}.,\n{lines}.\n"


def _list_of(here, places):
    """What the canonical text names of a section."""
    if places == here.there:
        return "all"
    entries = []
    numbers = sorted(number for number, lot in here.lots.items() if places & lot.places)
    if numbers:
        entries.append(f"lot{'s' if len(numbers) > 1 else ''} {', '.join(map(str, numbers))}")
    entries += [spelled(steps) for steps in written_parts(places & ~here.in_lots)]
    return ", ".join(entries)
