"""Random descriptions of land on a generated table, good and damaged."""

from generated_tables import GeneratedSection
from places import HALVES, QUARTERS, part
from spellings import SEPARATORS, aliquot, listed

#: A section that the table does not name.
REGULAR = GeneratedSection(others=[(quarter,) for quarter in QUARTERS])

#: What is put into a text to damage it.
MARKS = "; , . : & - ( é 12345 of the and NE 1/4 lot sec. thru x ½".split()


def description(random, table):
    """A description."""
    numbers = list(table.sections)
    random.shuffle(numbers)
    numbers = numbers[: random.choice((1, 1, 1, 2, 3))]
    if not numbers or random.random() < 0.15:
        numbers.append(random.randint(1, 36))
    groups = [_group(random, table, number) for number in numbers]
    if random.random() < 0.03:
        groups.append(groups[0])
    text = random.choice(("; ", ";\n", "; and ")).join(groups) + random.choice((".", ".", "", ".\n"))
    text = _heading(random, table) + text
    return (_damage(random, text) if random.random() < 0.06 else text).encode()


def _heading(random, table):
    kind = random.random()
    if kind < 0.8:
        return ""
    number, north_south, range_number, east_west = table.township
    if kind > 0.97:
        number = random.choice((0, 100, 1 + number % 99))
    if kind < 0.9:
        return f"T. {number} {north_south}., R. {range_number} {east_west}., "
    return f"t{number}{north_south} r{range_number}{east_west} ".lower()


def _group(random, table, number):
    """A section, and what is named of it."""
    kind = random.random()
    word = random.choice(("sec. ", "sec. ", "sec. ", "section ", "Sec "))
    if kind < 0.02:
        return f"{word}{random.choice((0, 37, 100, 9999))}, NE1/4"
    if kind < 0.12:
        return _whole(random, number)
    section = table.sections.get(number, REGULAR)
    parts = _parts(random, section)
    return f"{word}{number}{random.choice((', ', ', ', ': ', ' '))}{listed(random, parts)}"


def _whole(random, number):
    """Whole sections."""
    kind = random.random()
    if kind < 0.4:
        return f"sec. {number}" + random.choice(("", ", all", ": all", " all"))
    other = min(number + random.randint(0, 3), 36) if random.random() < 0.9 else random.randint(0, 40)
    joined = random.choice((" to ", " thru ", " through ", " and ", ", ", ", and "))
    return f"secs. {number}{joined}{other}" + random.choice(("", ", all", " all"))


def _parts(random, section):
    """The entries of a section's list."""
    entries = []
    lots = sorted(section.lots)
    kind = random.random()
    if kind < 0.03:
        entries.append("all")
    if lots and random.random() < 0.75:
        entries.append(_lots(random, lots))
    free = [each for each in section.others if random.random() < 0.5]
    entries += [aliquot(random, _smaller(random, each)) for each in free[:5]]
    if random.random() < 0.3:
        entries.append(_doubtful(random, section, lots, free))
    if not entries:
        entries.append(_lots(random, lots) if lots else aliquot(random, _any_part(random)))
    if random.random() < 0.3:
        random.shuffle(entries)
    return entries


def _doubtful(random, section, lots, free):
    """An entry that is probably refused."""
    kind = random.random()
    if kind < 0.25 and lots:
        parts = section.lots[random.choice(lots)]
        return aliquot(random, _near(random, random.choice(parts)))
    if kind < 0.5 and section.missing:
        return aliquot(random, _near(random, random.choice(section.missing)))
    if kind < 0.65 and free:
        return aliquot(random, free[0])
    if kind < 0.75:
        return random.choice(("lot 99", "lots 1 to 98", "lot 0", "lots 4 to 1", "lots 200 to 5000", "all"))
    if kind < 0.8:
        return aliquot(random, tuple(random.choice(QUARTERS) for _ in range(6)))
    return aliquot(random, _any_part(random))


def _lots(random, lots):
    """Some lots of a section, or of numbers near them."""
    kind = random.random()
    if kind < 0.2:
        return f"lot {random.choice(lots)}"
    if kind < 0.6:
        chosen = random.sample(lots, random.randint(1, min(len(lots), 5)))
        word = "lots" if len(chosen) > 1 else "lot"
        return f"{word} {listed(random, [str(each) for each in chosen])}"
    start = random.randrange(len(lots))
    end = start
    # A range of lots without a gap, if there are several.
    while end + 1 < len(lots) and lots[end + 1] == lots[end] + 1 and random.random() < 0.8:
        end += 1
    first, last = lots[start], lots[end]
    if kind > 0.96:
        first, last = last, first + random.choice((0, 0, 1, 2))
    text = f"lots {first} {random.choice(('to', 'thru', 'through'))} {last}"
    text += random.choice(("", "", "", ", inclusive", " inclusive"))
    return text + (random.choice(SEPARATORS) + str(random.choice(lots)) if random.random() < 0.1 else "")


def _smaller(random, steps):
    """A part, or a piece of it."""
    while random.random() < 0.3 and part((smaller := (random.choice(QUARTERS + HALVES), *steps))) is not None:
        steps = smaller
    return steps


def _near(random, steps):
    """A part, a piece of it, or a part that includes it."""
    return _smaller(random, steps) if random.random() < 0.7 else steps[-random.randint(1, len(steps)) :]


def _any_part(random):
    return tuple(random.choice(QUARTERS if random.random() < 0.7 else HALVES) for _ in range(random.randint(1, 5)))


def _damage(random, text):
    """A text with one mistake."""
    kind = random.random()
    at = random.randint(0, len(text))
    if kind < 0.4:
        return f"{text[:at]}{random.choice((' ', ''))}{random.choice(MARKS)}{text[at:]}"
    if kind < 0.7:
        return text[:at] + text[at + random.randint(1, 3) :]
    if kind < 0.71:
        return text + " " * 65_536
    return text[:at]
