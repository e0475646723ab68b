#!/usr/bin/env python3
"""Proves crates and the libraries that they depend on, several at a time, and builds them; of a static library, only those.

    python3 tools/prove.py twp_cmd

It runs the kit's own `rt ci` on a copy of these crates that has no wrong bodies, and moves what that built to their
folders out/. So each crate is proved from nothing, over the statements of those below it, which takes less time to load
than their proofs; and what was proved here, or by the gate, is kept by rt on this machine, and proved only once. A run
that was interrupted goes on with the crate at which it stopped. `rt check` takes the libraries as they are left.

It shows how many crates are proved and how many minutes it has taken. If a proof fails, it shows all that rt printed
of that crate, and ends with status 1.
"""

import re
import shutil
import signal
import subprocess
import sys
import tempfile
import threading
import time
from pathlib import Path

from kit import loaded_rt

ROOT = Path(__file__).resolve().parent.parent
# What of a crate's folder isn't proved or run.
LEFT_OUT = ("out", "must-fail", "must-fail-release")
# What rt prints of a crate: its output, after a line with two equals signs, and whether it is proved.
ENDED = re.compile(r"rt: (\w+) (?:proved|is kept: .*)$")
FAILED = re.compile(r"rt: \w+ NOT PROVED")


class Progress:
    """Takes what rt prints, and shows in its place how many crates are proved, and the output of one that isn't."""

    def __init__(self, count):
        self.count, self.proved, self.lines, self.start = count, set(), [], time.monotonic()

    def take(self, line):
        if line.startswith("== "):
            self.lines = []
        if found := ENDED.match(line):
            self.proved.add(found[1])
            self.show()
            self.lines = []
        elif FAILED.match(line):
            print(*self.lines, line, sep="\n", file=sys.stderr, flush=True)
            self.lines = []
        else:
            self.lines.append(line)

    def show(self):
        minutes = int(time.monotonic() - self.start) // 60
        print(f"{len(self.proved)} of {self.count} crates proved, {minutes} min so far", flush=True)

    def show_each_minute(self, ended):
        while not ended.wait(60):
            self.show()


def copy(crates, room):
    """Copies what `rt ci` reads of some crates to a folder, as a repository of its own."""
    for crate in crates:
        names = [it.name for it in Path(crate.folder).iterdir() if it.name not in LEFT_OUT]
        for it in (Path(crate.folder, name) for name in names):
            to = room / "crates" / crate.name / it.name
            to.parent.mkdir(parents=True, exist_ok=True)
            (shutil.copytree if it.is_dir() else shutil.copyfile)(it, to)
    named = {it.name for it in crates}
    rows = (ROOT / "crates.txt").read_text(encoding="utf-8").splitlines(keepends=True)
    (room / "crates.txt").write_text("".join(it for it in rows if re.split("[ :]", it)[0] in named), encoding="utf-8")
    shutil.copyfile(ROOT / "HANDLES", room / "HANDLES")


def run(room, progress):
    """Runs `rt ci` in a folder, and returns its status."""
    how = {"stdout": subprocess.PIPE, "stderr": subprocess.STDOUT, "text": True, "errors": "replace"}
    with subprocess.Popen(["rt", "ci"], cwd=room, **how) as running:
        try:
            for line in running.stdout:
                progress.take(line.rstrip("\n"))
        except BaseException:
            # Such as Ctrl-C. The kit's guard then ends the proofs.
            running.kill()
            raise
    if running.returncode and progress.lines:
        print(*progress.lines, sep="\n", file=sys.stderr, flush=True)
    return running.returncode


def take(crates, room):
    """Moves what was built in a folder to the crates, and notes of which sources it was built, as rt does."""
    for crate in crates:
        out, built = Path(crate.folder, "out"), room / "crates" / crate.name / "out"
        out.mkdir(exist_ok=True)
        for name in ("rlib", crate.name, f"{crate.name}.o"):
            remove(out / name)
            if (built / name).exists():
                shutil.move(built / name, out / name)
        stamp_of(crate).write_text(crate.stamp(), encoding="utf-8")


def remove(path):
    if path.is_dir():
        shutil.rmtree(path)
    else:
        path.unlink(missing_ok=True)


def stamp_of(crate):
    """The file that says of which sources a crate's library or program was built: for a library, that of rt itself."""
    return Path(crate.folder, "out", "proved" if crate.is_program else "rlib/stamp")


def is_built(crate):
    made = Path(crate.folder, "out", crate.name) if crate.is_program else Path(crate.rlib)
    stamp = stamp_of(crate)
    return made.exists() and stamp.is_file() and stamp.read_text(encoding="utf-8") == crate.stamp()


def prove(crates):
    """Proves and builds crates, and returns whether that succeeded."""
    progress, ended = Progress(len(crates)), threading.Event()
    threading.Thread(target=progress.show_each_minute, args=(ended,), daemon=True).start()
    # The sources may change while they are proved.
    stamps = [it.stamp() for it in crates]
    with tempfile.TemporaryDirectory(prefix="township-") as room:
        copy(crates, Path(room))
        status = run(room, progress)
        ended.set()
        if status == 0 and [it.stamp() for it in crates] == stamps:
            take(crates, Path(room))
        elif status == 0:
            print("the sources have changed meanwhile: run this again", file=sys.stderr)
            status = 1
    return status == 0


def main(names):
    if not names:
        sys.exit("usage: python3 tools/prove.py CRATE ..")
    # So that the folder is removed, and rt is ended.
    signal.signal(signal.SIGTERM, lambda *_: sys.exit(1))
    rt = loaded_rt("rtlib.crates_below") or sys.exit("prove.py: this kit's rt doesn't say which crates are below one")
    every = [it for name in names for it in rt.rtlib.crates_below(str(ROOT / "crates" / name))]
    # A static library is proved where it is built.
    crates = list({it.name: it for it in every if not it.is_static}.values())
    return 0 if all(is_built(it) for it in crates) or prove(crates) else 1


if __name__ == "__main__":
    sys.exit(main(sys.argv[1:]))
