"""Which tokens may follow the beginning of a sentence, and which bytes begin a token."""
from __future__ import annotations

import re
import string
from pathlib import Path
from typing import Iterator, Tuple

import pytest

from rows import TOP, Run, Wanted, Way
from running import ended_of, fault_of

EVEN = (TOP / "samples" / "b0.csv").read_bytes()
WORDS = (b"acres", b"notes.csv", b"land.txt")
#: A token of each class that a sentence can contain, and a word of no class.
TOKENS = "sec lot all and to inclusive of the t r n e ne 1/2 1/4 1 , ; : . x".split()
#: Beginnings of sentences, and which of the tokens may follow, worked out by hand from the grammar.
FRONTS = """
|sec t
t|. 1
t.|1
t 2|n
t 2 n|. , r
t 2 n.|, r
t 2 n,|r
t 2 n r|. 1
t 2 n r.|1
t 2 n r 3|e
t 2 n r 3 w|. , sec
t 2 n r 3 w.|, sec
t 2 n r 3 w,|sec
sec|. 1
sec.|1
sec 1|to , : and lot all n e ne ; .
sec 1,|and 1 lot all n e ne
sec 1:|lot all n e ne
sec 1 and|1
sec 1 to|1
sec 1 to 2|inclusive , : and all ; .
sec 1 to 2 inclusive|, : and all ; .
sec 1 to 2,|inclusive and 1 all
sec 1, 2|to , : and all ; .
sec 1, 2,|and 1 all
sec 1, 2:|all
sec 1, 2 all|; .
sec 1 lot|1
sec 1 lot 2|to , and ; .
sec 1 lot 2 to|1
sec 1 lot 2 to 3|inclusive , and ; .
sec 1 lot 2 to 3 inclusive|, and ; .
sec 1 lot 2,|and 1 lot all n e ne
sec 1 lot 2 to 3,|inclusive and 1 lot all n e ne
sec 1 lot 2 and|1 lot all n e ne
sec 1 n|1/2
sec 1 ne|1/4
sec 1 n1/2|of n e ne , and ; .
sec 1 n1/2 of|the n e ne
sec 1 n1/2 of the|n e ne
sec 1 all|, and ; .
sec 1 all,|and lot all n e ne
sec 1 all and|lot all n e ne
sec 1;|and sec
sec 1; and|sec
sec 1.|
"""


def fronts() -> Iterator[Tuple[str, str, bool]]:
    """Each beginning with each token, and whether the token may follow."""
    for line in FRONTS.strip("\n").split("\n"):
        front, _, follow = line.partition("|")
        for token in TOKENS:
            yield front, token, token in follow.split()


def run_of(land: bytes, wanted: Wanted) -> Run:
    return Run(repr(land), WORDS, {b"notes.csv": EVEN, b"land.txt": land}, None, Way.FILES, wanted)


@pytest.mark.parametrize("front, token, follows", fronts())
def test_token(front: str, token: str, follows: bool, program: str, folder: Path) -> None:
    """If a token may follow, any fault is after it; otherwise the fault is at it."""
    land = f"{front} {token}"
    ended = ended_of(program, run_of(land.encode(), Wanted(0, b"", (), b"")), folder)
    answer = ended.stdout.decode()
    if found := re.fullmatch(r"refused 4[234] at (\d+)\n", answer):
        place = int(found[1])
    else:
        assert re.fullmatch(r"refused 6[1-7] at \d+\n|[0-9.]+ acres\n", answer), f"{land!r} is answered {answer!r}"
        place = len(land)
    assert place == (len(land) if follows else len(front) + 1), f"{land!r} goes wrong at {place}"


def answer_of(byte: int) -> str:
    """White space and a T, which begins a heading, are read to the end; other letters, digits and signs are tokens that
    begin no description; and any other byte begins no token."""
    if byte in b"\t\n\r Tt":
        return "refused 44 at 1"
    tokens = string.ascii_letters + string.digits + ",.:;"
    return "refused 44 at 0" if byte in tokens.encode() else "refused 42 at 0"


@pytest.mark.parametrize("byte", range(256))
def test_byte(byte: int, program: str, folder: Path) -> None:
    """Each byte alone."""
    wanted = Wanted(1, f"{answer_of(byte)}\n".encode(), (), None)
    fault = fault_of(program, run_of(bytes([byte]), wanted), folder)
    if fault:
        pytest.fail(fault, pytrace=False)
