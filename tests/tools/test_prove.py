#!/usr/bin/env python3
"""Tests what tools/prove.py runs `rt ci` on, what it shows of what that prints, and what it takes from it."""
import contextlib
import io
import os
import pathlib
import sys
import tempfile
import types
import unittest
from unittest import mock

sys.dont_write_bytecode = True
sys.path.insert(0, str(pathlib.Path(__file__).resolve().parent.parent.parent / "tools"))

import prove  # noqa: E402

# A command in place of rt: it builds a crate and prints what a file says.
RT = """#!/bin/sh
[ "$*" = ci ] || exit 9
for it in crates/*; do
    name=${it#crates/}
    mkdir -p "$it/out/rlib/$name.rlib"
    echo built > "$it/out/rlib/$name.rlib/format"
    echo built > "$it/out/$name"
done
find . -type f | sort > "$SEEN"
echo "rt: twp_grid proved"
echo "rt: twp_cmd is kept: an earlier run on this machine proved the same files"
exit "$STATUS"
"""


class Proving(unittest.TestCase):
    def setUp(self):
        room = tempfile.TemporaryDirectory()
        self.addCleanup(room.cleanup)
        self.root = pathlib.Path(room.name)
        for it in ("crates.txt", "HANDLES", "crates/twp_grid/src/lib.rt", "crates/twp_cmd/src/main.rt", "crates/twp_cmd/stdin"):
            self.write(it, "")
        for it in ("must-fail", "must-fail-release", "out"):
            self.write(f"crates/twp_grid/{it}/one.edit", "")
        self.write("crates.txt", "# Lowest first.\ntwp_grid:\ntwp_land: twp_grid\ntwp_cmd: twp_grid\n")
        self.write("bin/rt", RT)
        (self.root / "bin/rt").chmod(0o755)
        self.library, self.program = self.crate("twp_grid"), self.crate("twp_cmd", True)

    def write(self, name, text):
        path = self.root / name
        path.parent.mkdir(parents=True, exist_ok=True)
        path.write_text(text, encoding="utf-8")

    def crate(self, name, is_program=False):
        """A crate whose sources have the stamp `now`."""
        folder = self.root / "crates" / name
        rlib = str(folder / "out" / "rlib" / f"{name}.rlib")
        return types.SimpleNamespace(name=name, folder=str(folder), rlib=rlib, is_program=is_program, stamp=lambda: "now")

    def proved(self, status=0):
        """Whether both are proved where `rt ci` ends with a status, and what is shown."""
        given = {"PATH": f"{self.root}/bin:{os.environ['PATH']}", "SEEN": f"{self.root}/seen", "STATUS": str(status)}
        shown, failures = io.StringIO(), io.StringIO()
        with mock.patch.dict(os.environ, given), mock.patch.object(prove, "ROOT", self.root):
            with contextlib.redirect_stdout(shown), contextlib.redirect_stderr(failures):
                is_proved = prove.prove([self.library, self.program])
        return is_proved, shown.getvalue() + failures.getvalue()

    def test_rt_ci_runs_on_these_crates_without_their_wrong_bodies(self):
        self.assertTrue(self.proved()[0])
        found = [it for it in (self.root / "seen").read_text().split() if "/out/" not in it]
        crates = ["./crates/twp_cmd/src/main.rt", "./crates/twp_cmd/stdin", "./crates/twp_grid/src/lib.rt"]
        self.assertEqual(found, ["./HANDLES", "./crates.txt", *crates])

    def test_crates_txt_has_their_rows_alone(self):
        with mock.patch.object(prove, "ROOT", self.root):
            prove.copy([self.library, self.program], self.root / "room")
        self.assertEqual((self.root / "room/crates.txt").read_text(), "twp_grid:\ntwp_cmd: twp_grid\n")

    def test_what_it_built_is_taken(self):
        self.assertFalse(prove.is_built(self.library) or prove.is_built(self.program))
        self.assertEqual(self.proved(), (True, "1 of 2 crates proved, 0 min so far\n2 of 2 crates proved, 0 min so far\n"))
        self.assertTrue(prove.is_built(self.library) and prove.is_built(self.program))
        self.library.stamp = lambda: "later"
        self.assertFalse(prove.is_built(self.library))

    def test_nothing_is_taken_if_a_proof_fails(self):
        self.assertFalse(self.proved(1)[0])
        self.assertFalse(prove.is_built(self.library) or prove.is_built(self.program))

    def test_nothing_is_taken_if_the_sources_change_meanwhile(self):
        stamps = iter(range(9))
        self.library.stamp = lambda: str(next(stamps))
        is_proved, shown = self.proved()
        self.assertFalse(is_proved)
        self.assertIn("the sources have changed meanwhile", shown)
        self.assertFalse(prove.is_built(self.program))


class Shown(unittest.TestCase):
    def of(self, *lines):
        """What is shown, and what is said of failures, where rt prints these lines."""
        shown, failures = io.StringIO(), io.StringIO()
        with contextlib.redirect_stdout(shown), contextlib.redirect_stderr(failures):
            progress = prove.Progress(2)
            for line in lines:
                progress.take(line)
        return shown.getvalue(), failures.getvalue()

    def test_a_crate_that_is_proved_is_counted(self):
        shown = self.of("== twp_grid", "logic=proved functions=79", "rt: twp_grid proved")
        self.assertEqual(shown, ("1 of 2 crates proved, 0 min so far\n", ""))

    def test_a_crate_that_is_not_proved_is_shown_whole_and_alone(self):
        proved, failed = ["== twp_grid", "logic=proved", "rt: twp_grid proved"], ["== twp_cmd", "an open goal", "rt: twp_cmd NOT PROVED"]
        shown, failures = self.of(*proved, *failed)
        self.assertEqual(shown, "1 of 2 crates proved, 0 min so far\n")
        self.assertEqual(failures.splitlines(), failed)

    def test_a_crate_above_one_that_is_not_proved_is_named(self):
        self.assertEqual(self.of("rt: twp_cmd NOT PROVED: its library twp_grid failed")[1], "rt: twp_cmd NOT PROVED: its library twp_grid failed\n")


if __name__ == "__main__":
    unittest.main()
