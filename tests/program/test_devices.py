"""Runs whose devices fail in midstream, move only a few bytes a call, or (readers) never end. For each, `twp_trials devices`
reads a line of words, which its src/devices.rt describes."""
from __future__ import annotations

import re
import subprocess
import tempfile
from pathlib import Path
from typing import Dict, Iterator, List, NamedTuple, Tuple

import pytest

from rows import TOP, with_records

#: T. 2 N., R. 3 W., whose lines are all 40 and 80 chains. Its notes have 1,638 bytes: 32 for the heading, 10 for the
#: township, 16 for each of the 84 lines, and for each of the 36 sections its digits at each of its 4 sides, 4 * (9 + 27
#: * 2).
EVEN = (TOP / "samples" / "b0.csv").read_bytes()
#: The same township, where six lines near section 6 are longer or shorter.
UNEVEN = (TOP / "samples" / "b1.csv").read_bytes()
#: More bytes than any run reads or writes.
ALL = 1 << 32


class Reader(NamedTuple):
    """What a reader gives, how often, how many bytes a call, and the call that fails, counted from 1."""

    text: bytes = b""
    times: str = "once"
    most: int = ALL
    failing: int = 0
    error: str = "none"

    @property
    def calls(self) -> int:
        """The calls that read all of a short text: those that give it, and the one that finds its end."""
        return -(-len(self.text) // min(self.most, 1024)) + 1


class Writer(NamedTuple):
    """How many bytes a writer takes, how many of them a call, and how it fails when it is full or flushed."""

    room: int = ALL
    most: int = 1
    full: str = "none"
    flushed: str = "none"


class Case(NamedTuple):
    """A run, what its writer takes, and how it ends."""

    name: str
    call: str
    notes: Reader
    second: Reader
    out: Writer
    taken: bytes
    ended: str
    #: How often each reader is called.
    calls: Tuple[int, int]

    def __str__(self) -> str:
        return self.name


class Example(NamedTuple):
    """A run that accepts its texts, and its answer."""

    call: str
    #: The text before the notes: a description and its line feed, for joined input.
    front: bytes
    second: bytes
    answer: bytes

    @property
    def notes(self) -> bytes:
        return self.front + EVEN

    def calls_of(self, second: Reader) -> int:
        """The calls of the second reader, if the run has one."""
        return second.calls if self.second else 0


def even_plat() -> bytes:
    """The plat of the even township: the closing sections have four lots of 40 acres, and section 6 has seven."""
    lots = {number: 4 for number in (1, 2, 3, 4, 5, 7, 18, 19, 30, 31)}
    lots[6] = 7
    lines = []
    for number in range(1, 37):
        figures = "".join(f"lot {lot} 40.00, " for lot in range(1, lots.get(number, 0) + 1))
        lines.append(f"sec. {number}: {figures}total 640.00\n")
    return "".join([*lines, "township total 23040.00\n"]).encode()


#: An example of each run, on the even township.
EXAMPLES = [
    Example("acres", b"", b"sec. 14.", b"640.00 acres\n"),
    Example("acres-by-plat", b"", b"sec. 7, lot 1.", b"40.00 acres\n"),
    Example("plat", b"", b"", even_plat()),
    Example("normal", b"", b"sec. 14, SE1/4, NE1/4, NW1/4.", b"T. 2 N., R. 3 W.,\nsec. 14, N1/2, SE1/4.\n"),
    Example(
        "report",
        b"",
        b"name,description\nA,sec. 14.\n",
        b"tract A: 640.00 acres\ntotal: 640.00 acres\nremaining: 22400.00 acres\n",
    ),
    Example("joined", b"sec. 14.\n", b"", b"640.00 acres\n"),
]
#: The length of each answer. In the plat, `sec. 1: ` is 8 bytes, `lot 1 40.00, ` 13, and `total 640.00` 13 with its
#: line feed. So sections 1 to 5 and 7 have 8 + 4 * 13 + 13 = 73, and 18, 19, 30, and 31 have 74; 6 has 8 + 7 * 13 + 13
#: = 112; 8 and 9 have 21, and the 23 others 22. `township total 23040.00` is 24: 6 * 73 + 4 * 74 + 112 + 2 * 21 + 23 *
#: 22 + 24 = 1,418.
LENGTHS = {"acres": 13, "acres-by-plat": 12, "plat": 1418, "normal": 18 + 22, "report": 22 + 20 + 26, "joined": 13}

#: The error after which others may try again, and another.
ERRORS = ("interrupted", "broken-pipe")
#: The calls that read the notes, of 100 bytes each: 17 give the 1,638 bytes of notes, with or without the 9 bytes
#: before them, and one finds their end.
NOTES_CALLS = 18
#: The calls that read the second text: one for each three bytes, and one more for its end.
SECOND_CALLS = {"acres": 4, "acres-by-plat": 6, "plat": 0, "normal": 11, "report": 11, "joined": 0}


def failing_readers() -> Iterator[Case]:
    """If a reader fails at any call, the run fails to read, has written nothing, and calls neither reader again. If
    neither fails before the run ends, it answers."""
    for example in EXAMPLES:
        last = NOTES_CALLS + SECOND_CALLS[example.call]
        for error in ERRORS:
            for failing in range(1, last + 2):
                notes = Reader(example.notes, "once", 100, failing, error)
                second = Reader(example.second, "once", 3, max(failing - NOTES_CALLS, 0), error)
                taken, ended = (b"", "cannot read") if failing <= last else (example.answer, "accepted")
                made = min(failing, last)
                calls = (min(made, NOTES_CALLS), max(made - NOTES_CALLS, 0))
                name = f"{example.call}: {error} at call {failing}"
                yield Case(name, example.call, notes, second, Writer(), taken, ended, calls)


def rooms_for(answer: bytes) -> Iterator[int]:
    """After each byte of a short answer, and after each hundredth byte of the plat; just enough room; and more room."""
    for room in range(len(answer) + 2):
        if len(answer) <= 100 or room >= len(answer) or room % 100 == 0:
            yield room


def failing_writers() -> Iterator[Case]:
    """If a writer fails after any byte, or when it is flushed, or if it takes no byte, the run fails to write, and has
    written as much of its answer as was taken. With room for the answer, it makes no call that could fail."""
    for example in EXAMPLES:
        notes, second = Reader(example.notes), Reader(example.second)
        calls = (notes.calls, example.calls_of(second))
        run = (example.call, notes, second)
        yield Case(f"{example.call}: one byte a call", *run, Writer(), example.answer, "accepted", calls)
        for error in (*ERRORS, "none"):
            for room in rooms_for(example.answer):
                taken = example.answer[:room]
                is_flush = room > len(example.answer)
                fails = len(taken) < len(example.answer) or (is_flush and error != "none")
                out = Writer(room, 7, error, error if is_flush else "none")
                ended = "cannot write" if fails else "accepted"
                name = f"{example.call}: {error} {'when flushed' if is_flush else f'after {room} bytes'}"
                yield Case(name, *run, out, taken, ended, calls)


#: A section of the even township.
LAND = Reader(b"sec. 14.")
#: Its notes, which 3 calls read, of 1,024, 614, and 0 bytes.
NOTES = Reader(EVEN)
NOTHING = Reader()


def endless(text: bytes) -> Reader:
    """Gives a character again and again, and fills every buffer."""
    return Reader(65536 * text, "endless")


#: A run reads in calls of 1,024 bytes, up to one byte past a limit. If the input ends before that, one call finds its
#: end. If the notes are refused, the second reader is not called.
LIMITS = [
    # 65,536 = 64 * 1,024 bytes, and the end.
    ("acres", Reader(65536 * b"x"), LAND, "refused 3 at 1", (65, 0)),
    # 64 * 1,024 bytes, and one more.
    ("acres", Reader(65537 * b"x"), LAND, "refused 1 at 65536", (65, 0)),
    ("acres", endless(b"x"), LAND, "refused 1 at 65536", (65, 0)),
    # The same for a description.
    ("acres", NOTES, Reader(65536 * b" "), "refused 44 at 65536", (3, 65)),
    ("acres", NOTES, Reader(65537 * b" "), "refused 41 at 65536", (3, 65)),
    ("acres", NOTES, endless(b" "), "refused 41 at 65536", (3, 65)),
    # 1,048,576 = 1,024 * 1,024 bytes, and the end.
    ("report", NOTES, Reader(1048576 * b"x"), "refused 81 at 1", (3, 1025)),
    # 1,024 * 1,024 bytes, and one more.
    ("report", NOTES, Reader(1048577 * b"x"), "refused 80 at 1048576", (3, 1025)),
    ("report", NOTES, endless(b"x"), "refused 80 at 1048576", (3, 1025)),
    # Without a line feed there are no notes. 131,073 = 128 * 1,024 + 1 bytes, and the end.
    ("joined", Reader(131073 * b" "), NOTHING, "refused 2 at 1", (130, 0)),
    # 131,074 = 128 * 1,024 + 2 bytes, which is the most that is read.
    ("joined", Reader(131074 * b" "), NOTHING, "refused 2 at 1", (129, 0)),
    ("joined", endless(b" "), NOTHING, "refused 2 at 1", (129, 0)),
    # 65,536 + 1 + 1,638 = 67,175 = 65 * 1,024 + 615 bytes, and the end.
    ("joined", Reader(65536 * b" " + b"\n" + EVEN), NOTHING, "refused 44 at 65536", (67, 0)),
    # 65 * 1,024 + 616 bytes, and the end.
    ("joined", Reader(65537 * b" " + b"\n" + EVEN), NOTHING, "refused 41 at 65536", (67, 0)),
]


def limits() -> Iterator[Case]:
    for call, notes, second, refused, calls in LIMITS:
        lengths = [f"{it.times} {len(it.text)}" for it in (notes, second)]
        name = f"{call}: {' and '.join(lengths)} bytes"
        yield Case(name, call, notes, second, Writer(), refused.encode() + b"\n", refused, calls)


#: The most bytes that a reader gives a call.
SIZES = (1, 2, 3, 7, 1000)
#: The plat of the uneven township. Section 4's heights at 0, 20, 40, 60, and 80 chains are 20.00, 20.05, 20.10, 20.15,
#: and 20.20, so its lots are 20 chains by 20.025, 20.075, 20.125, and 20.175. Section 18's widths from the north are
#: 19.50, 19.625, 19.75, 19.875, and 20.00, so its lots are 39.125, 39.375, 39.625, and 39.875 acres, each a tie. The
#: others are worked out in `rows/acres.toml`.
UNEVEN_PLAT = b"""\
sec. 1: lot 1 40.00, lot 2 40.00, lot 3 40.00, lot 4 40.00, total 640.00
sec. 2: lot 1 40.00, lot 2 40.00, lot 3 40.00, lot 4 40.00, total 640.00
sec. 3: lot 1 40.00, lot 2 40.00, lot 3 40.00, lot 4 40.00, total 640.00
sec. 4: lot 1 40.05, lot 2 40.15, lot 3 40.25, lot 4 40.35, total 640.80
sec. 5: lot 1 40.45, lot 2 40.55, lot 3 40.65, lot 4 40.75, total 642.40
sec. 6: lot 1 40.90, lot 2 41.10, lot 3 41.31, lot 4 39.95, lot 5 38.70, lot 6 38.90, lot 7 39.10, total 639.97
sec. 7: lot 1 39.18, lot 2 39.13, lot 3 39.08, lot 4 39.03, total 636.40
sec. 8: total 640.00
sec. 9: total 640.00
sec. 10: total 640.00
sec. 11: total 640.00
sec. 12: total 640.00
sec. 13: total 640.00
sec. 14: total 640.00
sec. 15: total 640.00
sec. 16: total 640.00
sec. 17: total 640.00
sec. 18: lot 1 39.13, lot 2 39.38, lot 3 39.63, lot 4 39.88, total 638.00
sec. 19: lot 1 40.00, lot 2 40.00, lot 3 40.00, lot 4 40.00, total 640.00
sec. 20: total 640.00
sec. 21: total 640.00
sec. 22: total 640.00
sec. 23: total 640.00
sec. 24: total 640.00
sec. 25: total 640.00
sec. 26: total 640.00
sec. 27: total 640.00
sec. 28: total 640.00
sec. 29: total 640.00
sec. 30: lot 1 40.00, lot 2 40.00, lot 3 40.00, lot 4 40.00, total 640.00
sec. 31: lot 1 40.00, lot 2 40.00, lot 3 40.00, lot 4 40.00, total 640.00
sec. 32: total 640.00
sec. 33: total 640.00
sec. 34: total 640.00
sec. 35: total 640.00
sec. 36: total 640.00
township total 23037.57
"""


def third(record: str) -> bytes:
    """The even township's notes with another third record."""
    return with_records(EVEN, {"3": record})


def tracts(*records: str) -> bytes:
    """A list of tracts with these records."""
    return "".join(f"{record}\n" for record in ("name,description", *records)).encode()


#: Runs, each with its texts, how it ends, and its answer, if that is no refusal.
RUNS = [
    ("acres", EVEN, b"sec. 14.", "accepted", b"640.00 acres\n"),
    # Section 5's heights at 0 and 20 chains are 20.20 and 20.25: lot 1 is 20 chains by 20.225.
    ("joined", b"sec. 5, lot 1.\n" + UNEVEN, b"", "accepted", b"40.45 acres\n"),
    # Exactly 116.70891.. acres; the lots rounded separately, 38.70, 38.90, and 39.10, sum to 116.70.
    ("acres", UNEVEN, b"sec. 6, lots 5, 6 and 7.", "accepted", b"116.71 acres\n"),
    # Four fields instead of five.
    ("acres", third("N,1,,40.00"), b"sec. 14.", "refused 4 at 3", b""),
    # `X` is not a run.
    ("acres", third("X,1,,40.00,80.00"), b"sec. 14.", "refused 6 at 3", b""),
    # 37 is not a section.
    ("acres", third("N,37,,40.00,80.00"), b"sec. 14.", "refused 7 at 3", b""),
    # Sections that do not share a line.
    ("acres", third("N,1,3,40.00,80.00"), b"sec. 14.", "refused 8 at 3", b""),
    # A section and itself.
    ("acres", third("N,1,1,40.00,80.00"), b"sec. 14.", "refused 8 at 3", b""),
    # Four decimals, which is one too many.
    ("acres", third("N,1,,40.0000,80.00"), b"sec. 14.", "refused 9 at 3", b""),
    ("plat", UNEVEN, b"", "accepted", UNEVEN_PLAT),
    # 39.175 and 39.025 acres, each rounded half up, and exactly 78.20 together; the township has 23,037.56775, of which
    # 22,959.36775 remain.
    (
        *("report", UNEVEN, tracts('A,"sec. 7, lot 1."', 'B,"sec. 7, lot 4."'), "accepted"),
        b"tract A: 39.18 acres\ntract B: 39.03 acres\ntotal: 78.20 acres\nremaining: 22959.37 acres\n",
    ),
    # Lot 1 is in both tracts.
    ("report", UNEVEN, tracts('A,"sec. 7, lot 1."', 'B,"sec. 7, lots 1 and 4."'), "refused 84 at 3", b""),
    # Two tracts with the same name.
    ("report", UNEVEN, tracts('A,"sec. 7, lot 1."', 'A,"sec. 7, lot 4."'), "refused 82 at 3", b""),
    # The second part begins after the 19 bytes `sec. 14, NE1/4 and `, and contains the first.
    (
        *("report", UNEVEN, tracts('A,"sec. 14, NE1/4 and N1/2."', 'B,"sec. 7, lot 4."')),
        *("tract 2 refused 67 at 19", b"refused 83 at 2\nrefused 67 at 19\n"),
    ),
    # The second tract has one field.
    ("report", UNEVEN, tracts('A,"sec. 7, lot 1."', "B"), "refused 81 at 3", b""),
]


def pieces() -> Iterator[Case]:
    """A run gives the same answer however few bytes its readers give a call."""
    for number, (call, notes_text, second_text, ended, answer) in enumerate(RUNS, 1):
        # Here, these are the refusals of the notes.
        is_of_notes = re.fullmatch("refused [1-9] at 3", ended)
        for most in SIZES:
            notes, second = Reader(notes_text, most=most), Reader(second_text, most=most)
            calls = (notes.calls, second.calls if second_text and not is_of_notes else 0)
            taken = answer or ended.encode() + b"\n"
            yield Case(f"{call}: run {number} by {most} bytes", call, notes, second, Writer(), taken, ended, calls)


CASES = [*failing_readers(), *failing_writers(), *limits(), *pieces()]
#: What the program prints for a line: the bytes that the writer took, and how the run ended.
PRINTED = re.compile(rb"(.*?)\n= ([^\n]*), calls: (\d+) and (\d+)\n", re.DOTALL)


def line_of(case: Case, names: Dict[bytes, str]) -> str:
    """The line that asks for a run."""
    notes, second = case.notes, case.second
    words = [case.call, names[notes.text], names[second.text], *notes[1:], *second[1:], *case.out]
    return " ".join(map(str, words))


@pytest.fixture(scope="module")
def printed(calls: str) -> List[Tuple[bytes, ...]]:
    """What the program prints for each case. It stops at a line that it can't read, so there may be fewer."""
    texts = {reader.text for case in CASES for reader in (case.notes, case.second)}
    names = {text: f"text{number}" for number, text in enumerate(sorted(texts))}
    lines = "".join(f"{line_of(case, names)}\n" for case in CASES)
    with tempfile.TemporaryDirectory() as folder:
        for text, name in names.items():
            (Path(folder) / name).write_bytes(text)
        ran = subprocess.run(
            [calls, "devices"], cwd=folder, input=lines.encode(), stdout=subprocess.PIPE, timeout=120, check=False
        )
    return PRINTED.findall(ran.stdout)


@pytest.mark.parametrize("number", range(len(CASES)), ids=list(map(str, CASES)))
def test_device(number: int, printed: List[Tuple[bytes, ...]]) -> None:
    case = CASES[number]
    wanted = (case.taken, case.ended.encode(), *(b"%d" % count for count in case.calls))
    assert number < len(printed) and printed[number] == wanted


@pytest.mark.parametrize("example", EXAMPLES, ids=[example.call for example in EXAMPLES])
def test_length(example: Example) -> None:
    """The answers of the examples are as long as was calculated."""
    assert len(example.answer) == LENGTHS[example.call]
