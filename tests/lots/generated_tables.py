"""Random lot tables, good and damaged. The same random source gives the same ones."""

from places import HALVES, QUARTERS, STANDARD, part, spelled
from spellings import aliquot, listed
from tables import LOTS_MOST, NUMBER_MOST

#: The other half.
REST = {"n": "s", "s": "n", "e": "w", "w": "e"}

#: Parts of a section with standard lots that are in no lot.
REGULAR = [("s", "se"), ("n", "se"), ("e", "sw"), ("s", "ne"), ("se", "nw")]

ALL_QUARTERS = [(quarter,) for quarter in QUARTERS]


def pieces_of(random, steps, depth):
    """Parts that make up a part: the part itself, or the pieces of its halves or quarters."""
    kind = random.random()
    if not depth or kind < 0.35:
        return [steps]
    into = QUARTERS if kind < 0.45 else ("n", "s") if kind < 0.75 else ("e", "w")
    if any(part((each, *steps)) is None for each in into):
        return [steps]
    return [piece for each in into for piece in pieces_of(random, (each, *steps), depth - 1)]


class GeneratedSection:
    """The parts of each lot by its number, of land that is not there, and some of the other land."""

    def __init__(self, lots=None, missing=(), others=()):
        self.lots = lots or {}
        self.missing = list(missing)
        self.others = list(others)


class GeneratedTable:
    """A lot table: its township, its sections, and its records after the first two."""

    def __init__(self, random, dated=True):
        self.random = random
        self.township = (random.randint(1, 99), random.choice("NS"), random.randint(1, 99), random.choice("EW"))
        #: Whether it may have a date.
        self.dated = dated
        year, month, day = random.randint(1785, 2026), random.randint(1, 12), random.randint(1, 28)
        self.date = f"{year}-{month:02}-{day:02}" if random.random() < 0.5 and dated else ""
        self.is_standard = random.random() < 0.15
        has_standard_places = not self.is_standard and random.random() < 0.05
        self.records = []
        self.sections = {}
        if self.is_standard or has_standard_places:
            self._add_standard()
        elif random.random() < 0.01:
            self._add_divided()
        else:
            for section in random.sample(range(1, 37), random.choice((0, *[1] * 8, 2, 2, 2, 3, 3, 6))):
                self._add_section(section)
        random.shuffle(self.records)

    def text(self):
        """The table as CSV."""
        heading = ["section", "lot", "acres"] if self.is_standard else ["section", "lot", "acres", "land"]
        township = ["T", *map(str, self.township)]
        return written(self.random, [heading, [*township, self.date] if self.date else township, *self.records])

    def _acres(self):
        random = self.random
        whole = random.randint(0, 999) if random.random() < 0.1 else random.randint(1, 60)
        return f"{whole}.{random.randint(1, 99):02}"

    def _add_standard(self):
        random = self.random
        for number, lots in STANDARD.items():
            share = 1.0 if random.random() < 0.8 else 0.6
            section = GeneratedSection({lot: [steps] for lot, steps in lots.items()}, others=REGULAR)
            self.sections[number] = section
            records = [self._record(number, lot, parts) for lot, parts in section.lots.items()]
            if self.is_standard:
                records = [record[:-1] for record in records if random.random() < share]
            self.records += records

    def _add_divided(self):
        """About as many divided quarter-quarters as there can be, or one more."""
        random = self.random
        sections = random.sample(range(1, 37), 9)
        halves = [(half, small, large) for large in QUARTERS for small in QUARTERS for half in ("n", "s")]
        for number in sections:
            parts = halves if number != sections[-1] else random.choice(([], halves[:2]))
            section = GeneratedSection(dict(enumerate([[steps] for steps in parts], 1)))
            self.sections[number] = section
            self.records += [self._record(number, lot, parts) for lot, parts in section.lots.items()]

    def _add_section(self, number):
        random = self.random
        kind = random.random()
        if kind < 0.02:
            # Nothing of the section is there.
            section = GeneratedSection(missing=random.choice(([("n",), ("s",)], ALL_QUARTERS)))
        elif kind < 0.04:
            # As many lots as there may be.
            thirds = [(a, b, c) for a in QUARTERS for b in QUARTERS for c in QUARTERS]
            section = self._with_lots(thirds, most=1)
        else:
            pieces, others = self._pieces()
            section = self._with_lots(pieces, most=4)
            section.others = others
        self.sections[number] = section
        self.records += [self._record(number, lot, parts) for lot, parts in section.lots.items()]
        missing = list(section.missing)
        while missing:
            count = random.choice((1, 1, 1, 2))
            self.records.append(self._record(number, None, missing[:count]))
            missing = missing[count:]

    def _pieces(self):
        """Pieces that make up some of the quarter-quarters of a section, and parts that make up the others."""
        random = self.random
        pieces, others = [], []
        for large in QUARTERS:
            kind = random.random()
            half = random.choice(HALVES)
            if kind < 0.3:
                others.append((large,))
            elif kind < 0.35:
                pieces.append((large,))
            elif kind < 0.45:
                pieces.append((half, large))
                others.append((REST[half], large))
            else:
                for small in QUARTERS:
                    if random.random() < 0.5:
                        pieces += pieces_of(random, (small, large), random.choice((0, 0, 1, 1, 2, 3, 6)))
                    else:
                        others.append((small, large))
        return (pieces, others) if len(pieces) <= LOTS_MOST else self._pieces()

    def _with_lots(self, pieces, most):
        """A section with lots of at most so many of the pieces, some of which are not there."""
        random = self.random
        random.shuffle(pieces)
        gone = random.choice((0.0, 0.0, 0.1, 0.4)) if most > 1 else 0.0
        highest = NUMBER_MOST if random.random() < 0.2 else min(len(pieces) + 3, NUMBER_MOST)
        numbers = random.sample(range(1, highest + 1), len(pieces))
        section = GeneratedSection()
        while pieces:
            if random.random() < gone:
                section.missing.append(pieces.pop())
                continue
            count = random.randint(1, most) if random.random() < 0.3 else 1
            section.lots[numbers.pop()], pieces = pieces[:count], pieces[count:]
        return section

    def _record(self, section, lot, parts):
        """The record of a lot, or of land that is not there."""
        random = self.random
        land = listed(random, [aliquot(random, steps) for steps in parts])
        number = str(section) if random.random() < 0.95 else f"{section:02}"
        return [number, "", "", land] if lot is None else [number, str(lot), self._acres(), land]


def written(random, records):
    """Records as CSV."""
    end = "\n" if random.random() < 0.9 else "\r\n"
    lines = [",".join(quoted(random, field) for field in record) for record in records]
    if random.random() < 0.05:
        lines.insert(random.randint(0, len(lines)), "")
    mark = "\ufeff" if random.random() < 0.05 else ""
    return (mark + end.join(lines) + (end if random.random() < 0.95 else "")).encode()


def quoted(random, field):
    """A field, in quotes if it needs them, and sometimes if it doesn't."""
    if "," in field or '"' in field or random.random() < 0.02:
        return '"' + field.replace('"', '""') + '"'
    return field


def damaged(table):
    """The text of a table that is damaged in one place, or in two."""
    random = table.random
    for _ in range(random.choice((1, 1, 1, 2))):
        damage = random.choice(_DAMAGES)
        text = damage(random, table)
        if text is not None:
            return text
    return table.text()


def _field(random, table, index, values):
    """Another text in a field of a record."""
    records = [record for record in table.records if len(record) > index]
    if records:
        random.choice(records)[index] = random.choice(values)


def _bad_section(random, table):
    _field(random, table, 0, ("0", "37", "99", "", "014", "1.", " 5", "x", "½", "-1"))


def _bad_lot(random, table):
    _field(random, table, 1, ("0", "100", "", "001", "A", "1A", " 1", "5", "8"))


def _bad_acres(random, table):
    _field(random, table, 2, ("", "40", "40.0", "0.00", "1000.00", "40,00", ".50", "40.455", "-1.00", " 40.00", "x"))


def _bad_land(random, table):
    _field(random, table, 3, ("", "all", "lot 1", "NENE", "NE1/4 NE", "NE1/4,", "sec. 14, NE1/4", "NE/4", "N1/4",
                              "NE1/4.", "NE1/4; NE1/4", "of NE1/4", "NE1/4 of", "NE1/4 or SE1/4", "12345", "N½½"))


def _too_fine(random, table):
    fine = spelled(tuple(random.choice(QUARTERS) for _ in range(6)))
    _field(random, table, 3, (fine, "N1/2N1/2N1/2N1/2N1/2N1/2", "NE1/4, " + fine))


def _other_land(random, table):
    """A part that may share places with others, or leave a quarter-quarter filled in part."""
    steps = tuple(random.choice(QUARTERS + HALVES) for _ in range(random.randint(1, 4)))
    _field(random, table, 3, (spelled(steps), "NE1/4, N1/2", "SW1/4NW1/4", "N1/2SE1/4SE1/4"))


def _left_out(random, table):
    if table.records:
        table.records.pop(random.randrange(len(table.records)))


def _repeated(random, table):
    if table.records:
        record = list(random.choice(table.records))
        if random.random() < 0.5:
            record[-1] = random.choice((record[-1], "S1/2SE1/4SE1/4", "40.00"))
        table.records.insert(random.randint(0, len(table.records)), record)


def _land_again(random, table):
    """Land that is not there on the places of another record, or of another such record if there is one."""
    missing = [record for record in table.records if len(record) > 3 and not record[1]]
    records = missing or [record for record in table.records if len(record) > 3]
    if records:
        record = random.choice(records)
        table.records.insert(random.randint(0, len(table.records)), [record[0], "", "", record[3]])


def _other_columns(random, table):
    record = random.choice(table.records) if table.records else None
    if record is None or random.random() < 0.2:
        table.records.append(random.choice((["14"], ["14", "1"], ["14", "1", "40.00"], ["14", "1", "40.00", "NE1/4"])))
    elif random.random() < 0.5:
        record.append("")
    else:
        record.pop()


def _one_more_lot(random, table):
    """A section with one lot more than it may have."""
    fourths = [(a, b, c) for a in QUARTERS for b in QUARTERS for c in QUARTERS]
    split = fourths.pop()
    parts = [("n", *split), ("s", *split), *fourths]
    if not table.is_standard:
        table.records = [each for each in table.records if each[0] not in ("8", "08")]
        table.records += [["8", str(lot), "10.00", spelled(steps)] for lot, steps in enumerate(parts, 1)]


def _date(random, table):
    if not table.dated:
        return
    table.date = random.choice(("1912-02-30", "1912-3-4", "1912", "x", "1900-02-29", "1912-13-01", "19120304",
                                "0000-01-01", "1912-00-10", "1912-01-00", " 1912-03-04", "1912-03-04T"))


def _township(random, table):
    parts = list(table.township)
    index = random.randrange(4)
    parts[index] = random.choice(("0", "100", "n", "", "x", "003"))
    table.township = tuple(parts)


def _heading(random, table):
    lines = table.text().split(b"\n", 1)
    lines[0] = random.choice((b"section,lot,acres,", b"Section,lot,acres,land", b"section,lot,land", b"lot,acres",
                              b"section;lot;acres;land", b"section,lot,acres,land,", b"line,between,and"))
    return b"\n".join(lines)


def _short(random, table):
    lines = table.text().split(b"\n")
    return b"\n".join(lines[: random.choice((0, 0, 1))])


def _long(random, table):
    return table.text() + b"\n" * (65_536 - random.choice((0, 0, len(table.text()))))


def _first_record(random, table):
    lines = table.text().split(b"\n")
    lines[1:2] = random.choice(([], [b"T,2,N,3"], [b"T,2,N,3,W,1912-03-04,x"], [b"R,2,N,3,W"]))
    return b"\n".join(lines)


_DAMAGES = (
    _bad_section, _bad_lot, _bad_acres, _bad_land, _bad_land, _too_fine, _other_land, _other_land, _other_land,
    _left_out, _left_out, _left_out, _repeated, _repeated, _land_again, _other_columns, _one_more_lot, _date,
    _township, _heading, _short, _long, _first_record,
)
