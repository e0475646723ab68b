#!/usr/bin/env python3
"""Compares include/township.h with the library's code in Rattle.

    python3 tools/signatures.py

The calls of the header must be those that the crates below crates/ export, and those behind them, which the exports
call: with the same parameters in the same order, and with the same names. The structs must have the same fields, and
the constants the same values. Each difference is named; the status is 1 if there are any. tools/bindings.py makes the
bindings from the header.
"""
from __future__ import annotations

import re
import sys
from math import prod
from pathlib import Path
from typing import Iterator, Mapping

import header
from header import Argument, Header, arguments_of, camel_case

CRATES = Path(__file__).resolve().parents[1] / "crates"

#: The parameters of a call, or the fields of a struct: their names, and their types in Rattle.
Declared = Mapping[str, list[tuple[str, str]]]

NUMBERS = {"uint8_t": "u8", "char": "u8", "uint16_t": "u16", "uint32_t": "u32", "uint64_t": "u64", "size_t": "usize"}

EXPORTS = r'^pub extern "C" fn (township_\w+)\(([^)]*)\)\s+-> TownshipAnswer$'
CALLS = r"^pub fn (township_\w+)\(([^)]*)\)\s+-> TownshipAnswer$"
STRUCTS = r"^#\[repr\(C\)\]\n(?:#.*\n)*pub struct Township(\w+) \{\n((?:    .*\n)*)\}"
#: Structs that aren't the header's, of which a struct of the header has all fields.
PARTS = r"^#\[repr\(C\)\]\n(?:#.*\n)*pub struct (?!Township)(\w+) \{\n((?:    .*\n)*)\}"
FIELDS = r"^    (?:pub )?(\w+): (\[*\w+)(.*),$"
CONSTANTS = r"^(?:pub(?:\(crate\))? )?const (\w+): \w+ = ([\d_]+);"


def main() -> int:
    text = header.HEADER.read_text(encoding="utf-8")
    found = header.read(text)
    sources = sources_of_library()
    calls = {call.name: [(each.name, type_of(each)) for each in arguments_of(call)] for call in found.calls}
    differences = [
        *compared("the exports", calls, functions_in(EXPORTS, sources)),
        *compared("the calls behind them", calls, functions_in(CALLS, sources)),
        *compared("the structs", structs_of(found), structs_in(sources, found)),
        *compared_constants(found, verdicts_in(text), sources),
    ]
    differences += [] if found.calls and found.structs else ["include/township.h declares nothing"]
    for difference in differences:
        print(difference)
    if not differences:
        print(f"the {len(found.calls)} calls and {len(found.structs)} structs of the header are those of the library")
    return 1 if differences else 0


def sources_of_library() -> str:
    """Return the sources of the crates that have exports, calls behind them, or structs of the header."""
    found = []
    for crate in sorted(CRATES.iterdir()):
        text = "\n".join(file.read_text(encoding="utf-8") for file in sorted((crate / "src").rglob("*.rt")))
        if any(re.search(form, text, re.M) for form in (EXPORTS, CALLS, STRUCTS)):
            found.append(text)
    return "\n".join(found)


def type_of(argument: Argument) -> str:
    """Return the type of an argument in Rattle, where a pointer to several values and their number are a slice."""
    kind = rattle_type(argument.kind)
    if not argument.is_pointer:
        return kind
    return f"{'&' if argument.is_read else '&mut '}{f'[{kind}]' if argument.is_slice else kind}"


def rattle_type(kind: str) -> str:
    """Return a number's type in Rattle, or a struct's."""
    return f"Township{camel_case(kind)}" if kind.startswith(header.NAMES) else NUMBERS[kind]


def functions_in(form: str, sources: str) -> Declared:
    """Return the parameters of the functions of a form, without the allocator."""
    found: dict[str, list[tuple[str, str]]] = {}
    for name, inside in re.findall(form, sources, re.M):
        parts = [part.strip().partition(": ") for part in inside.split(",") if part.strip()]
        found[name] = [(parameter, kind) for parameter, _, kind in parts if kind != "Global"]
    return found


def structs_of(found: Header) -> Declared:
    """Return the fields of the header's structs. Arrays of arrays are one array here."""
    return {
        camel_case(struct.name): [
            (field.name, array_of(rattle_type(field.kind), found.dimensions(field))) for field in struct.fields
        ]
        for struct in found.structs
    }


def structs_in(sources: str, found: Header) -> Declared:
    """Return the same of the library's code, whose arrays may have the header's names for their lengths."""
    counts = {constant.name: constant.value for constant in found.constants if not constant.is_code}
    counts.update({name: int(value) for name, value in re.findall(CONSTANTS, sources, re.M)})
    parts = dict(re.findall(PARTS, all_sources(), re.M))
    return {
        name: [
            (field, array_of(kind.lstrip("["), [counts[count] for count in re.findall(r"; (\w+)", lengths)]))
            for field, kind, lengths in fields_in(inside, parts)
        ]
        for name, inside in re.findall(STRUCTS, sources, re.M)
    }


def fields_in(inside: str, parts: Mapping[str, str]) -> Iterator[tuple[str, str, str]]:
    """Yield the fields of a struct, and in place of a part its fields: name, type, and lengths."""
    for field, kind, lengths in re.findall(FIELDS, inside, re.M):
        if kind in parts:
            yield from fields_in(parts[kind], parts)
        else:
            yield field, kind, lengths


def all_sources() -> str:
    """Return the sources of all crates."""
    return "\n".join(file.read_text(encoding="utf-8") for file in sorted(CRATES.glob("*/src/**/*.rt")))


def array_of(kind: str, counts: list[int]) -> str:
    return f"[{kind}; {prod(counts)}]" if counts else kind


def verdicts_in(text: str) -> list[str]:
    """Return the names of the verdicts, which the library has to define."""
    [block] = re.findall(r"^/\* Verdicts\. \*/\n(.*?)\n\n", text, re.M | re.S)
    return re.findall(r"^#define TOWNSHIP_(\w+) \d+u", block, re.M)


def compared(what: str, wanted: Declared, found: Declared) -> Iterator[str]:
    """Yield a line for each call or struct that is missing, unknown, or different."""
    for name in sorted({*wanted, *found}):
        if wanted.get(name) != found.get(name):
            yield f"{what}: {name}: wanted {wanted.get(name)}, found {found.get(name)}"


def compared_constants(found: Header, verdicts: list[str], sources: str) -> Iterator[str]:
    """Yield a line for each constant that has another value in the library, and for each verdict that it lacks."""
    values = {constant.name: constant.value for constant in found.constants}
    defined = [(name, int(value)) for name, value in re.findall(CONSTANTS, sources, re.M)]
    for name, value in defined:
        if values.get(name, value) != value:
            yield f"the constants: {name} is {value}, and TOWNSHIP_{name} is {values[name]}"
    for name in sorted({*verdicts} - {name for name, _ in defined}):
        yield f"the constants: {name} is not defined"


if __name__ == "__main__":
    sys.exit(main())
