#!/usr/bin/env python3
"""Makes the parts of the bindings that repeat include/township.h: its constants, its structs, and its calls.

    python3 tools/bindings.py

writes bindings/python/src/township/_library.py and bindings/rust/src/ffi/declared.rs. With --check, nothing is written,
and the status is 1 if one of them isn't what the header makes.
"""
from __future__ import annotations

import sys
from pathlib import Path
from textwrap import fill
from typing import Iterator, Sequence

import header
from header import Argument, Call, Constant, Field, Header, Struct, arguments_of, camel_case

TOP = Path(__file__).resolve().parents[1]

#: The longest lines of each language.
PYTHON_COLUMNS, RUST_COLUMNS = 120, 100

#: A call whose name Python already has.
RENAMED = {"township_print": "print_plat"}

#: Codes for fields of one byte. In Rust, they have the type of these fields.
OF_ONE_BYTE = {"NORTH", "SOUTH", "EAST", "WEST"}

PYTHON_TYPES = {
    "uint8_t": "c_uint8", "char": "c_char", "uint16_t": "c_uint16", "uint32_t": "c_uint32", "uint64_t": "c_uint64",
    "size_t": "c_size_t",
}
RUST_TYPES = {"uint8_t": "u8", "char": "u8", "uint16_t": "u16", "uint32_t": "u32", "uint64_t": "u64", "size_t": "usize"}

PYTHON_BEGIN = '''\
"""The library's constants, structs, and calls. Made from include/township.h by tools/bindings.py, not by hand."""
from __future__ import annotations

import ctypes
from ctypes import POINTER, c_char, c_char_p, c_size_t, c_uint8, c_uint16, c_uint32, c_uint64
from typing import Any, Callable

from ._loading import LIBRARY
'''

PYTHON_CALLS = '''

def _call(name: str, *types: Any) -> Callable[..., Answer]:
    """Return the library's function of this name, with the types of its arguments declared."""
    function: Any = getattr(LIBRARY, name)
    function.argtypes = types
    function.restype = Answer
    call: Callable[..., Answer] = function
    return call


'''

RUST_BEGIN = """\
//! The library's constants, structs, and calls. Made by `tools/bindings.py` from
//! `include/township.h`, not by hand.

// The header declares more than this crate uses.
#![allow(dead_code)]

use std::mem::{offset_of, size_of};
"""

RUST_CALLS = """
// The library requires that no pointer be null, that each point to at least as many values as its
// length parameter says, and that the memory a call writes not overlap its other arguments. Slices
// and references meet these requirements: a slice's pointer is not null even if the slice is empty,
// and a `&mut` borrow overlaps nothing else. The library keeps no pointer after it returns.
extern "C" {
"""


def main() -> int:
    """Write the files, or check them. Return the exit status."""
    found = header.read()
    status = 0
    for place, made in (
        ("bindings/python/src/township/_library.py", python_module(found)),
        ("bindings/rust/src/ffi/declared.rs", rust_module(found)),
    ):
        if sys.argv[1:] != ["--check"]:
            (TOP / place).write_text(made, encoding="utf-8")
        elif (TOP / place).read_text(encoding="utf-8") != made:
            print(f"{place}: run python3 tools/bindings.py, and commit what it changes")
            status = 1
    return status


def numbers(found: Header) -> list[Constant]:
    """Return the constants of the header, apart from its version: bindings ask the library for its own."""
    return [constant for constant in found.constants if not constant.name.startswith("VERSION_")]


def name_of(call: Call) -> str:
    """Return the name of a call in the bindings."""
    return RENAMED.get(call.name, call.name.removeprefix(header.NAMES))


def laid_out(begin: str, items: Sequence[str], end: str, columns: int) -> str:
    """Return a list on one line or, if that is too long, on lines of its own, between its beginning and its end."""
    line = f"{begin}{', '.join(items)}{end}"
    if len(line) <= columns:
        return line
    outer = " " * (len(begin) - len(begin.lstrip()))
    inner = f"{outer}    "
    # No item is broken.
    filled = fill(
        " ".join(f"{item},".replace(" ", "\0") for item in items), columns, initial_indent=inner,
        subsequent_indent=inner, break_long_words=False, break_on_hyphens=False,
    )
    return f"{begin.rstrip()}\n{filled}\n{outer}{end.lstrip()}".replace("\0", " ")


def python_module(found: Header) -> str:
    """Return the module for Python."""
    lines = [PYTHON_BEGIN]
    lines += [f"{constant.name} = {constant.value:_}" for constant in numbers(found)]
    for struct in found.structs:
        fields = [f'("{field.name}", {python_field(field)})' for field in struct.fields]
        lines += ["", "", f"class {camel_case(struct.name)}(ctypes.Structure):"]
        lines += [f'    """`{struct.name}`: {found.layout(struct).size:,} bytes."""', ""]
        lines += [laid_out("    _fields_ = [", fields, "]", PYTHON_COLUMNS)]
    calls = [
        laid_out(f"{name_of(call)} = _call(", [f'"{call.name}"', *python_types(call)], ")", PYTHON_COLUMNS)
        for call in found.calls
    ]
    return "\n".join(lines) + "\n" + PYTHON_CALLS + "\n".join(calls) + "\n"


def python_field(field: Field) -> str:
    """Return the type of a field in Python, where the innermost dimension of an array is the first one."""
    return " * ".join([python_type(field.kind), *reversed(field.counts)])


def python_type(kind: str) -> str:
    """Return a number's type in Python, or a struct's."""
    return camel_case(kind) if kind.startswith(header.NAMES) else PYTHON_TYPES[kind]


def python_types(call: Call) -> Iterator[str]:
    """Yield the types of the parameters of a call in Python."""
    for parameter in call.parameters:
        if not parameter.is_pointer:
            yield python_type(parameter.kind)
        elif parameter.kind != "uint8_t":
            yield f"POINTER({python_type(parameter.kind)})"
        else:
            # `bytes`, of which Python makes no copy; zeros among them are like all others, since their length follows.
            yield "c_char_p" if parameter.is_read else "POINTER(c_char)"


def rust_module(found: Header) -> str:
    """Return the module for Rust."""
    lines = [RUST_BEGIN]
    for constant in numbers(found):
        lines.append(f"pub(crate) const {constant.name}: {rust_constant(constant)} = {constant.value:_};")
    for struct in found.structs:
        lines += rust_struct(struct)
    lines += ["", "// The library is compiled for these layouts."]
    lines += [rust_layout(found, struct) for struct in found.structs]
    declared = [rust_declaration(call) for call in found.calls]
    return "\n".join(lines) + "\n" + RUST_CALLS + "\n".join([*declared, "}", ""]) + "".join(map(rust_call, found.calls))


def rust_constant(constant: Constant) -> str:
    """Return the type of a constant in Rust."""
    if constant.name in OF_ONE_BYTE:
        return "u8"
    return "u32" if constant.is_code else "usize"


def rust_struct(struct: Struct) -> list[str]:
    """Return a struct in Rust, with a value for a call to overwrite. One with an array is copied only by `clone`."""
    name = camel_case(struct.name)
    copied = "Clone" if any(field.counts for field in struct.fields) else "Clone, Copy"
    return [
        "",
        f"/// `{struct.name}`.",
        "#[repr(C)]",
        f"#[derive({copied}, Debug, PartialEq, Eq, Hash)]",
        f"pub(crate) struct {name} {{",
        *(f"    pub(crate) {field.name}: {rust_array(rust_type(field.kind), field)}," for field in struct.fields),
        "}",
        "",
        f"impl {name} {{",
        f"    pub(crate) const BLANK: {name} = {name} {{",
        *(f"        {field.name}: {rust_array(rust_blank(field.kind), field)}," for field in struct.fields),
        "    };",
        "}",
    ]


def rust_type(kind: str) -> str:
    """Return a number's type in Rust, or a struct's."""
    return camel_case(kind) if kind.startswith(header.NAMES) else RUST_TYPES[kind]


def rust_blank(kind: str) -> str:
    """Return the value of a field that isn't written yet."""
    return f"{camel_case(kind)}::BLANK" if kind.startswith(header.NAMES) else "0"


def rust_array(of: str, field: Field) -> str:
    """Return the type or the value of a field, given that of its elements."""
    for count in reversed(field.counts):
        of = f"[{of}; {count}]"
    return of


def rust_layout(found: Header, struct: Struct) -> str:
    """Return an assertion of the size of a struct, and of where its last field is."""
    name, last, layout = camel_case(struct.name), struct.fields[-1].name, found.layout(struct)
    conditions = f"size_of::<{name}>() == {layout.size} && offset_of!({name}, {last}) == {layout.offsets[-1]}"
    return laid_out("const _: () = assert!(", [conditions], ");", RUST_COLUMNS)


def rust_declaration(call: Call) -> str:
    """Return a function as Rust declares it."""
    parameters = [
        f"{each.name}: {('*const ' if each.is_read else '*mut ') if each.is_pointer else ''}{rust_type(each.kind)}"
        for each in call.parameters
    ]
    return laid_out(f"    fn {call.name}(", parameters, ") -> Answer;", RUST_COLUMNS)


def rust_call(call: Call) -> str:
    """Return a safe function for a call. A struct or number that the call writes is returned beside its answer."""
    given = [each for each in arguments_of(call) if not is_returned(each)]
    written = [each for each in arguments_of(call) if is_returned(each)]
    outcome = ["Answer", *(rust_type(each.kind) for each in written)]
    returned = f"({', '.join(outcome)})" if written else "Answer"
    signature = laid_out(
        f"pub(crate) fn {name_of(call)}(", [f"{each.name}: {rust_parameter(each)}" for each in given],
        f") -> {returned} {{", RUST_COLUMNS,
    )
    passed = [part for each in arguments_of(call) for part in rust_passed(each)]
    body = [f"    let mut {each.name} = {rust_blank(each.kind)};" for each in written]
    body += [
        "    // SAFETY: slices and references meet the library's requirements.",
        "    let answer = unsafe {" if written else "    unsafe {",
        laid_out(f"        {call.name}(", passed, ")", RUST_COLUMNS),
        "    };" if written else "    }",
    ]
    if written:
        body.append(f"    (answer, {', '.join(each.name for each in written)})")
    return "\n".join(["", f"/// Calls `{call.name}`.", signature, *body, "}", ""])


def is_returned(argument: Argument) -> bool:
    """Return whether an argument is only written, and is no array."""
    return argument.is_pointer and not argument.is_read and not argument.is_slice


def rust_parameter(argument: Argument) -> str:
    """Return the type of a parameter of a safe function."""
    kind = rust_type(argument.kind)
    if not argument.is_pointer:
        return kind
    return f"{'&' if argument.is_read else '&mut '}{f'[{kind}]' if argument.is_slice else kind}"


def rust_passed(argument: Argument) -> list[str]:
    """Return what a safe function passes for an argument."""
    if argument.is_slice:
        pointer = "as_ptr" if argument.is_read else "as_mut_ptr"
        return [f"{argument.name}.{pointer}()", f"{argument.name}.len()"]
    return [f"&mut {argument.name}" if is_returned(argument) else argument.name]


if __name__ == "__main__":
    sys.exit(main())
