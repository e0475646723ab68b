"""Breaks an explanation into the lines that the program shows.

In a row, its sentence and its help are on one line each. The program breaks each into at most three lines of at most
100 columns, of which those after the first are indented by two spaces. The third line leaves room for a space and two
dots, which replace the rest.
"""
from __future__ import annotations

import re
from typing import Callable, Iterator

COLUMNS, LINES, DOTS = 100, 3, " .."
#: The sentence, after the place; and the help, which is no excerpt.
SENTENCE = re.compile(r"(township: .*?(?::\d+){0,2}: )(.*)")
HELP = re.compile(r"(  )(?!\s*\d* \| )(\S.*)")


def wrapped(text: str, ended: Callable[[str], bytes]) -> str:
    """The whole explanation."""
    lines = ended(text).decode().split("\n")
    return "\n".join(broken for line in lines for broken in broken_line(line))


def broken_line(line: str) -> Iterator[str]:
    """One of its lines, as the program breaks it."""
    found = SENTENCE.fullmatch(line) or HELP.fullmatch(line)
    if not found or len(line) <= COLUMNS:
        yield line
        return
    shown, after, count = found[1], "", 1
    for word in found[2].split(" "):
        room = COLUMNS if count < LINES else COLUMNS - len(DOTS)
        if len(shown + after + word) <= room:
            shown += after + word
        elif count < LINES:
            yield shown
            shown, count = f"  {word}", count + 1
        else:
            shown += f"{after}.."
            break
        after = " "
    yield shown
