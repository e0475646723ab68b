"""Reads include/township.h, for the scripts that make the bindings of it, or compare it with the library's code.

Nothing is passed over: `read` fails at whatever it doesn't know.
"""
from __future__ import annotations

import re
from pathlib import Path
from typing import Callable, NamedTuple

HEADER = Path(__file__).resolve().parents[1] / "include" / "township.h"

#: What the names of all constants, and of all structs and calls, begin with.
CONSTANTS, NAMES = "TOWNSHIP_", "township_"

#: The sizes of the types that are no structs, in bytes.
SIZES = {"uint8_t": 1, "char": 1, "uint16_t": 2, "uint32_t": 4, "uint64_t": 8, "size_t": 8}


class Constant(NamedTuple):
    """`#define TOWNSHIP_REFUSED 1u`, by the end of its name. An unsigned one is a code, and any other a count."""

    name: str
    value: int
    is_code: bool


class Field(NamedTuple):
    """A field of a struct: its type, and the names of the dimensions of an array, as in `lots[SECTIONS][LOTS_MOST]`."""

    name: str
    kind: str
    counts: tuple[str, ...]


class Struct(NamedTuple):
    """A struct, by its whole name, such as `township_plat`."""

    name: str
    fields: tuple[Field, ...]


class Parameter(NamedTuple):
    """A parameter of a call: a number, or a pointer to what is read (`const`) or written."""

    name: str
    kind: str
    is_pointer: bool
    is_read: bool


class Call(NamedTuple):
    """A function, by its whole name; each returns a `township_answer`."""

    name: str
    parameters: tuple[Parameter, ...]


class Argument(NamedTuple):
    """One or two parameters: a number, a struct, or a pointer to several values with the number of them after it."""

    name: str
    kind: str
    is_pointer: bool
    is_read: bool
    is_slice: bool


class Header(NamedTuple):
    """All that the header declares, in its order."""

    constants: tuple[Constant, ...]
    structs: tuple[Struct, ...]
    calls: tuple[Call, ...]

    def dimensions(self, field: Field) -> list[int]:
        """Return the dimensions of an array, from the outermost one; none for a field that is no array."""
        values = {constant.name: constant.value for constant in self.constants}
        return [values[count] for count in field.counts]

    def layout(self, struct: Struct) -> Layout:
        """Return the offset of each field of a struct, its size, and its alignment, as C compilers lay it out."""
        known = {each.name: each for each in self.structs}
        offsets = []
        end, widest = 0, 1
        for field in struct.fields:
            inner = self.layout(known[field.kind]) if field.kind in known else None
            size, alignment = (inner.size, inner.alignment) if inner else (SIZES[field.kind],) * 2
            offset = up_to(alignment, end)
            offsets.append(offset)
            for count in self.dimensions(field):
                size *= count
            end, widest = offset + size, max(widest, alignment)
        return Layout(tuple(offsets), up_to(widest, end), widest)


class Layout(NamedTuple):
    """Where the fields of a struct are, in bytes."""

    offsets: tuple[int, ...]
    size: int
    alignment: int


def up_to(alignment: int, offset: int) -> int:
    """Return the first multiple of an alignment that is no less than an offset."""
    return -(-offset // alignment) * alignment


def arguments_of(call: Call) -> list[Argument]:
    """Return the parameters of a call, with a pointer to several values and their number as one."""
    found: list[Argument] = []
    parameters = list(call.parameters)
    while parameters:
        first = parameters.pop(0)
        is_slice = bool(parameters) and first.is_pointer and parameters[0].kind == "size_t"
        if is_slice:
            parameters.pop(0)
        elif first.kind == "size_t":
            raise ValueError(f"{call.name}: {first.name} is the length of nothing")
        found.append(Argument(first.name, first.kind, first.is_pointer, first.is_read, is_slice))
    return found


def read(text: str | None = None) -> Header:
    """Return what the header declares, or a text like it."""
    text = HEADER.read_text(encoding="utf-8") if text is None else text
    text = re.sub(r"/\*.*?\*/", " ", text, flags=re.S)
    text = re.sub(r"^#ifdef __cplusplus\n.*?^#endif\n", "", text, flags=re.S | re.M)
    constants: list[Constant] = []
    structs: list[Struct] = []
    calls: list[Call] = []
    forms: list[tuple[str, Callable[[re.Match[str]], object]]] = [
        (rf"#define {CONSTANTS}(\w+) (\d+)(u?)[ \t]*\n", lambda found: constants.append(constant_of(*found.groups()))),
        (r"#(?:ifndef|define) TOWNSHIP_H\n|#include <\w+\.h>\n|#endif\n", lambda found: None),
        (rf"#define {CONSTANTS}VERSION \"[^\"\n]*\"\n", lambda found: None),
        (rf"typedef struct ({NAMES}\w+) \{{([^}}]*)\}} \1;", lambda found: structs.append(struct_of(*found.groups()))),
        (rf"{NAMES}answer ({NAMES}\w+)\(([^)]*)\);", lambda found: calls.append(call_of(*found.groups()))),
    ]
    text = text.lstrip()
    while text:
        found, take = next(
            ((found, take) for form, take in forms if (found := re.match(form, text))), (None, None)
        )
        if found is None or take is None:
            raise ValueError(f"township.h: this is not understood: {text.splitlines()[0]}")
        take(found)
        text = text[found.end() :].lstrip()
    return Header(tuple(constants), tuple(structs), tuple(calls))


def constant_of(name: str, digits: str, suffix: str) -> Constant:
    return Constant(name, int(digits), bool(suffix))


def struct_of(name: str, inside: str) -> Struct:
    return Struct(name, tuple(field_of(name, line) for line in inside.split(";") if line.strip()))


def field_of(struct: str, declared: str) -> Field:
    found = re.fullmatch(rf"\s*(\w+) (\w+)((?:\[{CONSTANTS}\w+\])*)\s*", declared)
    if not found:
        raise ValueError(f"{struct}: this field is not understood: {declared.strip()}")
    kind, name, counts = found.groups()
    return Field(name, kind, tuple(re.findall(rf"\[{CONSTANTS}(\w+)\]", counts)))


def call_of(name: str, inside: str) -> Call:
    return Call(name, tuple(parameter_of(name, part) for part in inside.split(",")))


def parameter_of(call: str, declared: str) -> Parameter:
    found = re.fullmatch(r"\s*(const )?(\w+) (\*?)(\w+)\s*", declared)
    if not found:
        raise ValueError(f"{call}: this parameter is not understood: {declared.strip()}")
    const, kind, star, name = found.groups()
    return Parameter(name, kind, bool(star), bool(const))


def camel_case(name: str) -> str:
    """Return a name such as `township_plat_figures` as `PlatFigures`."""
    return "".join(word.capitalize() for word in name.removeprefix(NAMES).split("_"))
