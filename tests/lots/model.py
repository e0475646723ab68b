#!/usr/bin/env python3
"""Compares a library with a slow model of lot tables, and of descriptions on them, on random cases.

    python3 tests/lots/model.py [--count N] [--seed N] [--columns 3|4] [--undated] [--against LIBRARY]

The model works with sets of places, and uses no code of the library or of the bindings: see tables.py and meaning.py.
A case is a damaged lot table, or a description on a table. With --columns, all tables have that many columns, and with
--undated, none has a date. Without a library, the model only checks itself: canonical texts name the same land, and
each kind of answer is given. A case that fails is shown with the number of its table; run that table alone with
--table N. The last line is `N passed, M failed`.
"""

import argparse
import collections
import random
import sys
import time

from descriptions import Refused, items_of
from generated_descriptions import description
from generated_tables import GeneratedTable, damaged
from library import Failed, Library
from meaning import LACKING, NOT_THERE, area_of, land_of, rounded, text_of
from tables import NUMBERS, Fault, Faulty, table_of

#: How many descriptions there are on each table.
DESCRIPTIONS = 10

#: How many tables in a hundred are damaged.
DAMAGED = 25

#: The number of cases from which on each kind of answer must be given.
ENOUGH = 20_000

#: The kinds of answers: the faults of tables, the refusals of descriptions, and what is accepted.
REFUSALS = (*range(41, 45), *range(61, NOT_THERE + 1), LACKING)
FAULTS_OF_LAND = (Fault.LAND, Fault.TOO_FINE, Fault.SHARED, Fault.TOO_MANY, Fault.UNFILLED, Fault.DIVIDED)
ACCEPTED_TABLE, ACCEPTED = "accepted table", "accepted description"

#: How many failures are shown.
SHOWN = 10


class Comparison:
    """The cases so far: how many passed, how many answers of each kind there were, and what failed."""

    def __init__(self, library=None, columns=None, dated=True):
        self.library = library
        self.columns = columns
        self.dated = dated
        self.passed = 0
        self.failed = 0
        self.kinds = collections.Counter()
        #: The numbers that the library gives to each fault of tables whose number it has differently.
        self.other_numbers = collections.Counter()

    @property
    def cases(self):
        return self.passed + self.failed

    def count(self, where, expected, found):
        """Count a case. Both answers are tuples."""
        if expected == found:
            self.passed += 1
            return
        self.failed += 1
        if self.failed <= SHOWN:
            print(f"FAILED: {where}\n  expected {expected}\n  found    {found}")

    def table(self, seed, index):
        """The cases of one table."""
        source = random.Random(f"{seed}/{index}")
        generated = GeneratedTable(source, self.dated)
        is_damaged = source.randrange(100) < DAMAGED
        if self.columns is not None and generated.is_standard != (self.columns == 3):
            return
        text = damaged(generated) if is_damaged else generated.text()
        where = f"table {index}"
        try:
            table = table_of(text)
        except Faulty as faulty:
            self.kinds[faulty.fault] += 1
            self._count_fault(where, text, faulty)
            return
        self.kinds[ACCEPTED_TABLE] += 1
        if self.library is not None:
            refusal = self.library.read(text)
            if refusal is not None:
                self.count(f"{where}\n{shown(text)}", (None,), refusal)
                return
        for number in range(DESCRIPTIONS):
            self._description(table, description(source, generated), f"{where}, description {number}")

    def _count_fault(self, where, text, faulty):
        if self.library is None:
            self.passed += 1
            return
        refusal = self.library.read(text)
        number = NUMBERS[faulty.fault]
        if refusal is not None and refusal[0] != number:
            self.other_numbers[faulty.fault, refusal[0]] += 1
        self.count(f"{where}: {faulty.fault.name}\n{shown(text)}", (number, faulty.at), refusal)

    def _description(self, table, text, where):
        """The case of one description on a table."""
        try:
            land = land_of(table, items_of(text))
            area = area_of(table, land)
        except Refused as refused:
            self.kinds[refused.number] += 1
            expected = (refused.number, refused.at), 0
            self.count(f"{where}: {shown(text)}", expected, expected if self.library is None else self._acres(text))
            return
        self.kinds[ACCEPTED] += 1
        canonical = text_of(table, land)
        if land_of(table, items_of(canonical.encode())) != land:
            self.count(f"{where}: {shown(text)}", ("the canonical text names this land",), (canonical,))
            return
        expected = ((None, rounded(area)), area.numerator, area.denominator, canonical)
        found = expected if self.library is None else self._accepted(text, area)
        self.count(f"{where}: {shown(text)}", expected, found)

    def _acres(self, text):
        try:
            return self.library.acres(text)
        except Failed as failed:
            return str(failed), 0

    def _accepted(self, text, area):
        """What the library answers to a description that the model accepts."""
        try:
            acres = self.library.acres(text)
            if acres[0] is not None:
                return (acres,)
            over, under = self.library.area(text)
            if over * area.denominator == under * area.numerator:
                over, under = area.numerator, area.denominator
            if self.library.land_acres(text) != acres:
                raise Failed("the land has other acres than the description")
            return acres, over, under, self.library.text(text)
        except Failed as failed:
            return (str(failed),)

    def lacking(self):
        """The kinds of answers that were not given."""
        kinds = {ACCEPTED_TABLE, ACCEPTED, *REFUSALS, *Fault}
        if self.columns == 3:
            kinds -= {NOT_THERE, *FAULTS_OF_LAND}
        if self.columns == 4:
            kinds -= {LACKING}
        if not self.dated:
            kinds -= {Fault.DATE}
        return [each for each in kinds if not self.kinds[each]]


def shown(text):
    """A text, in part if it is long."""
    return text[:1000] if len(text) <= 1000 else text[:1000] + b".. %d bytes" % len(text)


def main():
    parser = argparse.ArgumentParser(usage=__doc__)
    parser.add_argument("--count", type=int, default=ENOUGH)
    parser.add_argument("--seed", type=int, default=1)
    parser.add_argument("--columns", type=int, choices=(3, 4))
    parser.add_argument("--undated", action="store_true")
    parser.add_argument("--table", type=int)
    parser.add_argument("--against")
    asked = parser.parse_args()
    library = Library(asked.against) if asked.against else None
    comparison = Comparison(library, asked.columns, not asked.undated)
    if asked.table is not None:
        comparison.table(asked.seed, asked.table)
        print(f"{comparison.passed} passed, {comparison.failed} failed")
        return comparison.failed > 0
    began, index = time.monotonic(), 0
    while comparison.cases < asked.count:
        comparison.table(asked.seed, index)
        index += 1
    for kind, number in sorted(comparison.kinds.items(), key=lambda each: -each[1]):
        print(f"{number:9,} {kind.name if isinstance(kind, Fault) else kind}")
    for (fault, number), times in comparison.other_numbers.items():
        print(f"{fault.name} is refused with {number} and not {NUMBERS[fault]}: {times} times")
    if asked.count >= ENOUGH:
        for kind in comparison.lacking():
            comparison.count(f"no case is answered so: {kind}", ("some",), ("none",))
    print(f"{index:,} tables in {time.monotonic() - began:.1f} seconds")
    print(f"{comparison.passed} passed, {comparison.failed} failed")
    return comparison.failed > 0 or not comparison.passed


if __name__ == "__main__":
    sys.exit(main())
