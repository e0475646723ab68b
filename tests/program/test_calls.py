"""Single calls of twp_trials, which makes one and prints its answer: values as they are written, and the messages for an
invalid length, field notes, or description, few of which the program shows."""
from __future__ import annotations

import subprocess
from pathlib import Path
from typing import List, Optional

import pytest

from rows import TOP, with_records

EVEN = (TOP / "samples" / "b0.csv").read_bytes()
UNEVEN = (TOP / "samples" / "b1.csv").read_bytes()
#: Notes with the largest numbers, with leading zeros and one decimal; and as they are written.
FAR = with_records(EVEN, {"2": "T,99,S,99,E", "3": "N,01,,00.5,99.999"})
FAR_WRITTEN = with_records(EVEN, {"2": "T,99,S,99,E", "3": "N,1,,0.50,99.999"})


def told(calls: str, folder: Path, words: List[str], given: Optional[bytes] = None) -> bytes:
    """What a call prints, with `input` a file of these bytes. Invalid input is reported by the call, or by the program,
    which then has nothing to call with. The last line may lack a line feed."""
    file = folder / "input"
    if given is not None:
        file.write_bytes(given)
    try:
        ran = subprocess.run([calls, *words], cwd=folder, stdin=subprocess.DEVNULL, capture_output=True, timeout=60)
    finally:
        file.unlink(missing_ok=True)
    text = (ran.stdout + ran.stderr).replace(b"calling\n", b"", 1)
    return text if text.endswith(b"\n") or not text else text + b"\n"


@pytest.mark.parametrize(
    "length, written",
    # Whole chains in one digit or two, a leading zero, one to three decimals, and the longest one.
    [
        *(("80", "80.00"), ("7", "7.00"), ("19.575", "19.575"), ("19.5", "19.50"), ("00.05", "0.05")),
        *(("0.005", "0.005"), ("99.999", "99.999")),
    ],
)
def test_length(length: str, written: str, calls: str, folder: Path) -> None:
    """A length is written after the old content of the vector."""
    assert told(calls, folder, ["write-length", length, "0"]) == f"answered\nheld: {written}\n".encode()


@pytest.mark.parametrize(
    "hundredths, written",
    [
        *(("3905", "39.05"), ("5", "0.05"), ("0", "0.00"), ("16000", "160.00")),
        ("18446744073709551615", "184467440737095516.15"),
    ],
)
def test_acres(hundredths: str, written: str, calls: str, folder: Path) -> None:
    """Acres for hundredths, up to the largest number."""
    assert told(calls, folder, ["write-acres", hundredths, "0"]) == f"answered\nheld: {written}\n".encode()


@pytest.mark.parametrize("notes", [EVEN, UNEVEN], ids=["even", "uneven"])
def test_notes_written(notes: bytes, calls: str, folder: Path) -> None:
    """Notes are written as the samples are."""
    assert told(calls, folder, ["write-notes", "input", "0"], notes) == b"answered\nheld: " + notes


@pytest.mark.parametrize("notes, written", [(EVEN, EVEN), (UNEVEN, UNEVEN), (FAR, FAR_WRITTEN)], ids=["even", "uneven", "far"])
def test_notes_read(notes: bytes, written: bytes, calls: str, folder: Path) -> None:
    assert told(calls, folder, ["read-notes", "input"], notes) == b"answered\n" + written


@pytest.mark.parametrize(
    "count, text",
    [
        (1, "sec. 14"),
        (5, "sec. 14, NE1/4, S1/2NW1/4; sec. 6, lots 1 thru 3."),
        (6, "T. 2 N., R. 3 W., sec. 6, lots 1 thru 3, S1/2 of the NE1/4; secs. 7, 8 all"),
        (2, "sec 1, W1/2SW1/4NE1/4E1/2S1/2W1/2N1/2SW1/4SE1/4NW1/4S1/2of N1/2"),
    ],
)
def test_items(count: int, text: str, calls: str, folder: Path) -> None:
    """Items of descriptions: a section and its parts."""
    assert told(calls, folder, ["read-description", "input"], text.encode()) == f"answered\n{count}\n".encode()


HEADING = "T. 2 N., R. 3 W.,\n"
MORE = "here could stand a part of the section, or another section's number"


@pytest.mark.parametrize(
    "answer, text",
    [
        (f"answered\n{HEADING}sec. 14, N1/2, SE1/4.", "sec. 14, SE1/4, NE1/4, NW1/4."),
        (f"answered\n{HEADING}sec. 1, all;\nsec. 6, lots 1, 3, 4, 5.", "sec. 6, lots 5, 1, 3 thru 4; sec. 1."),
        ("the heading at 0 is of another township than the field notes", "T. 2 N., R. 3 E., sec. 14."),
        ("the number at 5 is no section's: they are 1 to 36", "sec. 37."),
        ("the range that ends at 11 runs backward", "secs. 9 to 4."),
        ("the number at 12 is no lot of its section", "sec. 5, lot 5."),
        ("the aliquot part at 9 is too fine", "sec. 14, N1/2NE1/4NE1/4NE1/4NE1/4NE1/4."),
        ("the aliquot part at 8 holds land of a lot", "sec. 5, N1/2."),
        ("at 19 land is named that was named before", "sec. 14, NE1/4 and N1/2."),
        (f"the description goes wrong at 8: {MORE}", "sec. 14,"),
    ],
)
def test_spelling(answer: str, text: str, calls: str, folder: Path) -> None:
    """The canonical texts of land in T. 2 N., R. 3 W., and the messages for descriptions that name no land there."""
    assert told(calls, folder, ["spell", "input"], text.encode()) == f"{answer}\n".encode()


@pytest.mark.parametrize(
    "length, message",
    [
        ("", "a length is empty"),
        ("8O", "a length is no decimal number"),
        ("80.", "a length is no decimal number"),
        (".5", "a length is no decimal number"),
        ("1.2.3", "a length is no decimal number"),
        (" 80", "a length is no decimal number"),
        ("40.0000", "a length has more than three decimals"),
        ("100.0000", "a length has more than three decimals"),
        ("100.5", "a length has more than two digits before its point"),
        ("100", "a length has more than two digits before its point"),
        ("005", "a length has more than two digits before its point"),
    ],
)
def test_invalid_length(length: str, message: str, calls: str, folder: Path) -> None:
    assert told(calls, folder, ["write-length", length, "0"]) == f"{message}\n".encode()


HEADING_OF_NOTES = "`line,between,and,quarter,corner`"


@pytest.mark.parametrize(
    "number, record, message",
    # The even notes with one record replaced, with one more, and with one fewer.
    [
        ("1", "Line,between,and,quarter,corner", f"record 1 isn't the heading {HEADING_OF_NOTES}"),
        ("2", "T,2,N,3", "record 2 doesn't have five fields"),
        ("2", "T,0,N,3,W", "record 2 isn't a township, as `T,2,N,3,W`: numbers 1 to 99, in one or two digits"),
        ("3", "X,1,,40.00,80.00", "record 3 has no run: its first field is `N` or `W`"),
        ("4", "N,37,2,40.00,80.00", "record 4 has no sections: 1 to 36 in one or two digits; only field 3 may be empty"),
        ("5", "N,1,3,40.00,80.00", "record 5 names no line: its run has none between these sections"),
        ("86", "W,31,,40.00,8O", "a distance of record 86 isn't chains: one or two digits, at most three decimals"),
        ("87", "N,1,,40.00,80.00", "record 87 returns a line that an earlier record returned"),
        ("56", "", "no record returns the line of index 53"),
    ],
)
def test_invalid_notes(number: str, record: str, message: str, calls: str, folder: Path) -> None:
    notes = with_records(EVEN, {number: record})
    assert told(calls, folder, ["read-notes", "input"], notes) == f"{message}\n".encode()


@pytest.mark.parametrize(
    "call, given, message",
    [
        ("read-notes", b"", f"the notes are empty: record 1 is {HEADING_OF_NOTES}"),
        ("read-notes", bytes(65537), "the notes have more than 65,536 bytes"),
        ("read-description", bytes(65537), "a description has more than 65536 bytes"),
    ],
    ids=["empty notes", "long notes", "a long description"],
)
def test_lengths_of_input(call: str, given: bytes, message: str, calls: str, folder: Path) -> None:
    assert told(calls, folder, [call, "input"], given) == f"{message}\n".encode()


@pytest.mark.parametrize(
    "text, message",
    # The place is counted by hand, and the tokens allowed there are in the grammar.
    [
        ("sec. 14-15.", "the byte at 7 is no part of a description"),
        ("sec. 10000.", "the number at 5 has more than four digits"),
        ("sec. 14,", f"the description goes wrong at 8: {MORE}"),
        ("sec. 14, NE1/2.", "the description goes wrong at 11: here could stand `1/4`"),
        ("sec. 14, lots 1 and.", "the description goes wrong at 19: here could stand another lot's number, or another part"),
        ("T. 2 N. R. 3 W.", "the description goes wrong at 15: here could stand `sec.`"),
        ("lot 1.", "the description goes wrong at 0: here could stand `T.` of a heading, or `sec.`"),
        ("sec. 14. sec. 15.", "the description goes wrong at 9: here could stand nothing more"),
    ],
)
def test_invalid_description(text: str, message: str, calls: str, folder: Path) -> None:
    assert told(calls, folder, ["read-description", "input"], text.encode()) == f"{message}\n".encode()
