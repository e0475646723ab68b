#!/usr/bin/env python3
"""Compares the calls for lists and for many descriptions by lot tables with those for single descriptions.

    TOWNSHIP_LIBRARY=LIBRARY PYTHONPATH=bindings/python/src python3 tests/lots/lists.py [--count N] [--seed N]

The tables and descriptions are random (generated_tables.py, generated_descriptions.py); N is the number of tables. The
same seed gives the same cases. The last line is `N passed, M failed`.
"""

import argparse
import collections
import random
from decimal import Decimal

from generated_descriptions import description
from generated_tables import GeneratedTable

import township

#: How many descriptions there are on each table, and how many of them are tracts of a list.
DESCRIPTIONS, TRACTS = 24, 12

#: The number of tables from which on each kind of answer must be given, and these kinds.
ENOUGH = 200
KINDS = ("acres", "refused", "a lot that the table lacks", "a repeated name", "an overlap", "an overlap without acreage")

#: How many failures are shown.
SHOWN = 5


def answer(call, *given):
    """Return the result of a call, or its refusal."""
    try:
        return call(*given)
    except township.Refused as refused:
        return refused


def same(one, other):
    """Whether two results are equal, or refusals for the same reason."""
    if isinstance(one, township.Refused) and isinstance(other, township.Refused):
        return (one.number, one.at, one.sentence) == (other.number, other.at, other.sentence)
    return one == other


class Comparison:
    """Compares the answers on random tables, and counts their kinds."""

    def __init__(self):
        self.passed, self.failed, self.kinds = 0, 0, collections.Counter()

    def check(self, is_same, *shown):
        self.passed += is_same
        self.failed += not is_same
        if not is_same and self.failed <= SHOWN:
            print("FAILED:", *shown)

    def table(self, source, generated, lots):
        """Compare the answers on one table."""
        texts = [description(source, generated) for _ in range(DESCRIPTIONS)]
        acres = [answer(lots.acres, text) for text in texts]
        for calls in (lots.acres_many(texts), lots.acres_many(texts, threads=2)):
            for text, one, many in zip(texts, acres, calls):
                self.check(same(one, many), generated.text(), text, one, many)
        for text, many in zip(texts, lots.normal_many(texts)):
            self.check(same(answer(lots.normal, text), many), generated.text(), text, many)
        self.kinds.update(kind_of(each) for each in acres)
        self.tracts(source, lots, texts[:TRACTS], acres)
        self.overlaps(lots, texts[:TRACTS])

    def tracts(self, source, lots, texts, acres):
        """Compare the answer to each tract of a list, in which a name may be repeated."""
        names = [str(index) for index in range(len(texts))]
        if source.random() < 0.3:
            names[3] = names[1]
        for index, (each, one) in enumerate(zip(lots.report_each(zip(names, texts)), acres)):
            if names[index] in names[:index]:
                self.kinds["a repeated name"] += 1
                self.check(each.acres is None and each.refusal == (82, index + 2), lots.csv, names, each)
            elif isinstance(one, Decimal):
                self.check(each.acres == one and each.refusal is None, lots.csv, texts[index], one, each)
            else:
                wanted = (None, (83, index + 2), (one.number, one.at))
                self.check((each.acres, each.refusal, each.inner) == wanted, lots.csv, texts[index], one, each)

    def overlaps(self, lots, texts):
        """Compare the overlaps of a list with those of any two lands."""
        lands = [answer(lots.land, text) for text in texts]
        wanted = []
        for second, later in enumerate(lands):
            for first, earlier in enumerate(lands[:second]):
                if isinstance(later, township.Land) and isinstance(earlier, township.Land) and earlier & later:
                    acres = answer(lots.acres, earlier & later)
                    wanted.append((first, second, acres if isinstance(acres, Decimal) else None))
        found = lots.overlaps([(str(index), text) for index, text in enumerate(texts)])
        self.check([tuple(each) for each in found] == wanted, lots.csv, texts, found, wanted)
        self.kinds["an overlap"] += len(wanted)
        self.kinds["an overlap without acreage"] += sum(acres is None for _, _, acres in wanted)


def kind_of(acres):
    if isinstance(acres, Decimal):
        return "acres"
    return "a lot that the table lacks" if acres.number == 94 else "refused"


def main():
    parser = argparse.ArgumentParser()
    parser.add_argument("--count", type=int, default=1000)
    parser.add_argument("--seed", type=int, default=1)
    asked = parser.parse_args()
    comparison, refused = Comparison(), 0
    for index in range(asked.count):
        source = random.Random(f"{asked.seed} {index}")
        generated = GeneratedTable(source)
        lots = answer(township.Lots.read, generated.text())
        if isinstance(lots, township.Lots):
            comparison.table(source, generated, lots)
        else:
            # Few generated tables are refused, such as one with too many lots.
            refused += 1
    comparison.check(refused <= asked.count // 20, refused, "tables were refused")
    if asked.count >= ENOUGH:
        for kind in KINDS:
            comparison.check(comparison.kinds[kind] > 0, "no case had", kind)
    print(f"{comparison.passed} passed, {comparison.failed} failed")
    return 1 if comparison.failed else 0


if __name__ == "__main__":
    raise SystemExit(main())
