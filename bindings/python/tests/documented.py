"""The refusals of `docs/REFUSALS.md`: the example of each row, as the input that it names."""
import re
from typing import Iterator, List, NamedTuple, Optional, Tuple

from samples import EVEN_NOTES, TOP, TRACTS

#: A row of a table: the number, the input, its refusal, and the refusal of a tract's description.
ROW = re.compile(
    r"^\| (\d+) \|.* \| ([^|]+): `refused \1 at (\d+)`(?:, `refused (\d+) at (\d+)`)? \|[^|]+\|$", re.MULTILINE
)


class Example(NamedTuple):
    """An input with its refusal."""

    number: int
    at: int
    given: bytes
    #: The number and place of the refusal of a tract's description.
    inner: Optional[Tuple[int, int]]


def examples(*headings: str) -> List[Example]:
    """The examples in the sections with these headings."""
    sections = (TOP / "docs" / "REFUSALS.md").read_text(encoding="utf-8").split("\n## ")
    found = [example for section in sections if section.startswith(headings) for example in examples_of(section)]
    assert found, headings
    return found


def examples_of(section: str) -> Iterator[Example]:
    for number, words, at, inner_number, inner_at in ROW.findall(section):
        inner = (int(inner_number), int(inner_at)) if inner_number else None
        yield Example(int(number), int(at), given_by(words, EVEN_NOTES if int(number) < 40 else TRACTS), inner)


def given_by(words: str, sample: bytes) -> bytes:
    """The input that an example names: a text, the sample with a record replaced or removed, or so many of something."""
    if words == "an empty file":
        return b""
    if words.startswith("`"):
        return words[1:-1].encode()
    record = re.fullmatch(r"(no )?record (\d+)(?: `(.*)`)?", words)
    if record:
        lines = sample.splitlines(keepends=True)
        number = int(record.group(2))
        lines[number - 1 : number] = [] if record.group(1) else [record.group(3).encode() + b"\n"]
        return b"".join(lines)
    count, _, unit = words.partition(" ")
    return so_many(int(count.replace(",", "")), unit)


def so_many(count: int, unit: str) -> bytes:
    if unit == "tracts":
        corners = ("NE1/4", "NW1/4", "SW1/4", "SE1/4")
        parts = ["".join(corners[k >> 2 * step & 3] for step in range(5)) for k in range(count)]
        return "".join(["name,description\n", *(f'{k},"sec. 8, {part}."\n' for k, part in enumerate(parts))]).encode()
    return {"spaces": b" ", "line feeds": b"\n"}[unit] * count
