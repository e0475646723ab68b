"""Runs the program as a row says, and compares how it ends."""
from __future__ import annotations

import os
import re
import subprocess
import threading
import time
from contextlib import contextmanager, suppress
from pathlib import Path
from typing import Any, Dict, Iterator, List, NamedTuple, Optional

from rows import Run, Wanted, Way

#: A run may take so many seconds; the slowest takes less than one.
SECONDS = 60
NOTE = re.compile(rb"township: .*:[0-9]+:[0-9]+: note: .")
EXPLANATION = re.compile(rb"township: .*: .")


class Ended(NamedTuple):
    """How a run ended. Its standard error may be lost."""

    status: int
    stdout: bytes
    stderr: Optional[bytes]


def fault_of(program: str, run: Run, folder: Path) -> Optional[str]:
    """What is wrong with a run of the program in an empty folder, or None."""
    ended = ended_of(program, run, folder)
    wrong = list(differences(run.wanted, ended))
    return None if not wrong else f"{run.name}: {', '.join(wrong)}\n{shown(run.wanted, ended)}"


def differences(wanted: Wanted, ended: Ended) -> Iterator[str]:
    """Name what differs."""
    if ended.status != wanted.status:
        yield f"the status is {ended.status}, not {wanted.status}"
    if not is_output(wanted, ended.stdout):
        yield "standard output differs"
    if ended.stderr is not None and not is_explained(wanted, ended.stderr):
        yield "standard error differs"


def is_output(wanted: Wanted, stdout: bytes) -> bool:
    if wanted.stdout is not None:
        return stdout == wanted.stdout
    return stdout.endswith(b"\n") and set(wanted.lines) <= set(stdout.split(b"\n"))


def is_explained(wanted: Wanted, stderr: bytes) -> bool:
    """Whether standard error is what is wanted, or if nothing is said of it, an explanation of a refusal, or a note."""
    if wanted.stderr is not None:
        return stderr == wanted.stderr
    if wanted.status == 0 and not stderr:
        return True
    form = NOTE if wanted.status == 0 else EXPLANATION
    return form.match(stderr) is not None and stderr.endswith(b"\n")


def shown(wanted: Wanted, ended: Ended) -> str:
    """What was wanted and what was found, for a person."""
    lines = b"" if wanted.stdout is not None else b"..\n" + b"\n".join(wanted.lines) + b"\n..\n"
    parts = {
        "standard output, wanted": wanted.stdout if wanted.stdout is not None else lines,
        "standard output, found": ended.stdout,
        "standard error, wanted": wanted.stderr,
        "standard error, found": ended.stderr,
    }
    return "\n".join(
        f"{about}:\n{text[:2000].decode('utf-8', 'backslashreplace')}"
        for about, text in parts.items()
        if text is not None
    )


def ended_of(program: str, run: Run, folder: Path) -> Ended:
    """Make the run's files, run the program, and remove them."""
    with files_of(run, folder):
        return started(program, run, folder)


def started(program: str, run: Run, folder: Path) -> Ended:
    """Run the program, and wait for its end."""
    command: List[Any] = [program, *run.words]
    if run.way is Way.CLOSED:
        command = ["sh", "-c", 'exec "$@" 2>&-', "sh", *command]
    with errors_of(run.way) as errors, stdin_of(run, folder) as stdin:
        ran = subprocess.run(
            command, cwd=folder, **stdin, stdout=subprocess.PIPE, stderr=errors, timeout=SECONDS, check=False
        )
    return Ended(ran.returncode, ran.stdout, ran.stderr if run.way.shows_errors else None)


@contextmanager
def stdin_of(run: Run, folder: Path) -> Iterator[Dict[str, Any]]:
    """Standard input, for `subprocess`: the bytes for a pipe, or a file."""
    if run.way is Way.PIPES:
        yield {"input": run.stdin or b""}
        return
    if run.stdin is None:
        yield {"stdin": subprocess.DEVNULL}
        return
    path = folder / ".stdin"
    path.write_bytes(run.stdin)
    with path.open("rb") as file:
        path.unlink()
        yield {"stdin": file}


@contextmanager
def errors_of(way: Way) -> Iterator[int]:
    """Where standard error goes, for `subprocess`."""
    if way is Way.FULL:
        file = os.open("/dev/full", os.O_WRONLY)
    elif way is Way.UNREAD:
        reader, file = os.pipe()
        os.close(reader)
    else:
        yield subprocess.PIPE
        return
    try:
        yield file
    finally:
        os.close(file)


@contextmanager
def files_of(run: Run, folder: Path) -> Iterator[None]:
    """The files and folders of a run, and for a run on pipes FIFOs that are written as soon as the program opens them."""
    paths = {os.path.join(os.fsencode(folder), name): text for name, text in run.files.items()}
    ended = threading.Event()
    threads = []
    for path, text in paths.items():
        if text is None:
            os.mkdir(path)
        elif run.way is Way.PIPES:
            os.mkfifo(path)
            threads.append(threading.Thread(target=feed, args=(path, text, ended)))
        else:
            write(path, text)
    for thread in threads:
        thread.start()
    try:
        yield
    finally:
        ended.set()
        for thread in threads:
            thread.join()
        for path, text in paths.items():
            os.rmdir(path) if text is None else os.unlink(path)


def write(path: bytes, text: bytes) -> None:
    with open(path, "wb") as file:
        file.write(text)


def feed(path: bytes, text: bytes, ended: threading.Event) -> None:
    """Write a FIFO, unless the program ends before it opens it."""
    while not ended.is_set():
        try:
            file = os.open(path, os.O_WRONLY | os.O_NONBLOCK)
        except OSError:  # The program has not opened it yet.
            time.sleep(0.0005)
            continue
        os.set_blocking(file, True)
        with suppress(BrokenPipeError), os.fdopen(file, "wb") as writer:
            writer.write(text)
        return
