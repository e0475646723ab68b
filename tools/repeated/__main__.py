#!/usr/bin/env python3
"""Compares what several files repeat with the one file that is its source.

    python3 tools/repeated

- The functions of include/township.h, with the lists, the promises, and the tests that have to name each of them.
- The words of hints, with those of tests/program/hints.toml, which the rows of the tests name.
- The numbers of the rules of readings, with those of the header and of the bindings, and the words for what they assume.
- The two ways to read a phrase of a text without readings, by their numbers and in words, likewise.
- The limits of the definitions, with those of the code, of the header, and of sentences; and likewise the lengths that
  half miles may have.
- The numbers of refusals in docs/REFUSALS.md, with the ranges of numbers that sentences give.
- The wrong bodies, definitions, and crates that there are, and the sizes of tests, with the counts in documents.
- The contracts that docs/PROMISES.md and docs/CONTRACTS.md cite, and the functions that docs/ARCHITECTURE.md names with
  their modules, with those in the code; and the names of docs/GLOSSARY.md, each with its crate.

Each difference is named; the status is 1 if there are any. tools/signatures.py compares the header with the library's
code, tools/bindings.py the bindings with the header, and tools/header_names.py the names of refusals and the versions.
"""

import sys
from typing import List

import calls
import contracts
import counts
import glossary
import hints
import lengths
import limits
import ranges
import rules
import ways


def main() -> int:
    differences: List[str] = []
    for module in (calls, rules, ways, hints, limits, lengths, ranges, counts, contracts, glossary):
        compared, found = module.compare()
        differences += found
        print(f"{compared} {module.WHAT}")
        if not compared:
            differences.append(f"there are no {module.WHAT}")
    for difference in differences:
        print(difference)
    return 1 if differences else 0


if __name__ == "__main__":
    sys.exit(main())
