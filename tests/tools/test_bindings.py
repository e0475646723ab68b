#!/usr/bin/env python3
"""Tests that include/township.h is read as C compilers read it, and that each difference from it is found."""
import contextlib
import io
import pathlib
import re
import shutil
import subprocess
import sys
import tempfile
import unittest
from unittest import mock

sys.dont_write_bytecode = True
ROOT = pathlib.Path(__file__).resolve().parents[2]
sys.path.insert(0, str(ROOT / "tools"))

import bindings  # noqa: E402
import header  # noqa: E402
import signatures  # noqa: E402

#: What is in the files of the library that are compared with the header.
LIBRARY = re.compile(r"^pub (?:extern \"C\" )?fn township_|^#\[repr\(C\)\]$|^pub const NO_ROOM", re.M)

MADE = ("bindings/python/src/township/_library.py", "bindings/rust/src/ffi/declared.rs")


class Header(unittest.TestCase):
    def refused(self, text, told):
        with self.assertRaisesRegex(ValueError, told):
            header.read(text)

    def test_whatever_is_not_known_is_refused(self):
        for text in (
            *("int township_read(void);", "enum { TOWNSHIP_LINES = 84 };", "#pragma pack(1)"),
            *("#define TOWNSHIP_LINES (84)", "#define TOWNSHIP_LINES 84ul"),
            "typedef struct township_plat { uint8_t range; } township_plats;",
        ):
            with self.subTest(text=text):
                self.refused(text + "\n", "not understood")

    def test_fields_and_parameters_that_are_not_known_are_refused(self):
        for field in ("uint8_t number, range", "uint8_t lots[47]", "uint8_t *name", "unsigned range : 7"):
            self.refused(f"typedef struct township_plat {{ {field}; }} township_plat;", "township_plat: this field")
        self.refused("township_answer township_read(const uint8_t **notes);", "township_read: this parameter")

    def test_length_of_nothing(self):
        [call] = header.read("township_answer township_read(uint32_t account, size_t room);").calls
        with self.assertRaisesRegex(ValueError, "township_read: room is the length of nothing"):
            header.arguments_of(call)

    @unittest.skipUnless(shutil.which("cc"), "there is no C compiler")
    def test_a_compiler_reads_the_same(self):
        found = header.read()
        shown = [f'"{each.name} %ld\\n", (long)TOWNSHIP_{each.name}' for each in found.constants]
        wanted = [f"{each.name} {each.value}" for each in found.constants]
        for struct in found.structs:
            layout = found.layout(struct)
            shown.append(f'"{struct.name} %zu\\n", sizeof({struct.name})')
            wanted.append(f"{struct.name} {layout.size}")
            for field, offset in zip(struct.fields, layout.offsets):
                shown.append(f'"{field.name} %zu\\n", offsetof({struct.name}, {field.name})')
                wanted.append(f"{field.name} {offset}")
        # A function of the same type as the header's declares it once more.
        again = [f"township_answer {call.name}({', '.join(map(in_c, call.parameters))});" for call in found.calls]
        lines = ["#include <stdio.h>", '#include "township.h"', *again, "int main(void) {"]
        lines += [*(f"    printf({each});" for each in shown), "    return 0;", "}", ""]
        with tempfile.TemporaryDirectory() as folder:
            source, program = pathlib.Path(folder, "shown.c"), pathlib.Path(folder, "shown")
            source.write_text("\n".join(lines))
            subprocess.run(["cc", "-std=c11", "-Werror", f"-I{ROOT}/include", "-o", program, source], check=True)
            output = subprocess.run([program], capture_output=True, text=True, check=True).stdout
        self.assertEqual(output.splitlines(), wanted)
        self.assertEqual(len(again), header.HEADER.read_text().count("\ntownship_answer township_"))


def in_c(parameter):
    """A parameter as C declares it."""
    pointer = "*" if parameter.is_pointer else ""
    return f"{'const ' if parameter.is_read else ''}{parameter.kind} {pointer}{parameter.name}"


class Changed(unittest.TestCase):
    def setUp(self):
        """Copies the header, what is made from it, and the code of the library."""
        folder = tempfile.TemporaryDirectory()
        self.addCleanup(folder.cleanup)
        self.root = pathlib.Path(folder.name)
        code = [file for file in ROOT.glob("crates/*/src/**/*.rt") if LIBRARY.search(file.read_text())]
        for place in ("include/township.h", *MADE, *(str(file.relative_to(ROOT)) for file in code)):
            (self.root / place).parent.mkdir(parents=True, exist_ok=True)
            (self.root / place).write_text((ROOT / place).read_text())
        for module, name, value in (
            (header, "HEADER", self.root / "include/township.h"),
            (bindings, "TOP", self.root),
            (signatures, "CRATES", self.root / "crates"),
        ):
            patched = mock.patch.object(module, name, value)
            patched.start()
            self.addCleanup(patched.stop)

    def change(self, place, old, new):
        text = (self.root / place).read_text()
        self.assertIn(old, text)
        (self.root / place).write_text(text.replace(old, new))

    def status_of(self, tool, *words):
        """The status of a tool, and what it prints."""
        output = io.StringIO()
        with mock.patch.object(sys, "argv", ["tool", *words]), contextlib.redirect_stdout(output):
            return tool.main(), output.getvalue()

    def test_nothing_changed(self):
        self.assertEqual(self.status_of(bindings, "--check"), (0, ""))
        self.assertEqual(self.status_of(signatures)[0], 0)

    def test_what_is_made_is_changed(self):
        for place in MADE:
            with self.subTest(place=place):
                self.change(place, "Designation", "Township")
                status, told = self.status_of(bindings, "--check")
                self.assertEqual((status, told.partition(":")[0]), (1, place))
                self.assertEqual(self.status_of(bindings)[0], 0)
                self.assertEqual((self.root / place).read_text(), (ROOT / place).read_text())

    def test_the_header_is_changed(self):
        for old, new, told in (
            ("uint8_t range; ", "uint8_t ranges; ", "the structs: Plat: "),
            ("    uint64_t units_high;", "    uint32_t units_high;", "the structs: Fraction: "),
            ("#define TOWNSHIP_TEXT_ROOM 256", "#define TOWNSHIP_TEXT_ROOM 255", "the structs: FullAnswer: "),
            ("TOWNSHIP_NO_ROOM 5u ", "TOWNSHIP_NO_ROOM 6u ", "NO_ROOM is 5, and TOWNSHIP_NO_ROOM is 6"),
            ("TOWNSHIP_NO_LAND 8u ", "TOWNSHIP_NONE 8u ", "NONE is not defined"),
            ("(const township_plat *plat, township_plat_figures", "(township_plat *plat, township_plat_figures",
             "the exports: township_figures: "),
            ("township_answer township_version(", "township_answer township_versions(",
             "the calls behind them: township_version: "),
        ):
            with self.subTest(told=told):
                self.change("include/township.h", old, new)
                status, output = self.status_of(signatures)
                self.assertEqual(status, 1)
                self.assertIn(told, output)
                status, output = self.status_of(bindings, "--check")
                self.assertEqual(status, 1)
                self.assertIn(f"{MADE[1]}: run python3 tools/bindings.py", output)
                self.change("include/township.h", new, old)

    def test_the_library_is_changed(self):
        for name, old, new, told in (
            ("plat.rt", "    pub north_south: u8,", "    pub north_south: u16,", "the structs: Plat: "),
            ("land.rt", "#[repr(C)]\n", "", "the structs: Land: wanted"),
            ("overlaps_call.rt", "fn township_overlaps(", "fn township_overlap(", "behind them: township_overlaps: "),
            ("figures.rt", "const LOT_PLACES: usize = 252;", "const LOT_PLACES: usize = 251;", "PlatFigures: wanted"),
            ("verdict.rt", "pub const NO_LAND: u32 = 8;", "", "the constants: NO_LAND is not defined"),
            ("verdict.rt", "NO_ROOM: u32 = 5;", "NO_ROOM: u32 = 6;", "NO_ROOM is 6, and TOWNSHIP_NO_ROOM is 5"),
            ("exports.rt", "    notes: &[u8],", "    note: &[u8],", "the exports: township_read: "),
        ):
            with self.subTest(told=told):
                [place] = [file for file in self.root.rglob(name) if old in file.read_text()]
                self.change(place, old, new)
                status, output = self.status_of(signatures)
                self.assertEqual(status, 1)
                self.assertIn(told, output)
                shutil.copy(ROOT / place.relative_to(self.root), place)


if __name__ == "__main__":
    unittest.main()
