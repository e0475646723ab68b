"""Shared by the examples that process many descriptions: chunks of work, and their answers."""

from __future__ import annotations

import pickle
from typing import NamedTuple

import made_up
import township


class Chunk(NamedTuple):
    """Descriptions on one plat. Both are plain data, which one process can send to another."""

    plat: township.Plat
    descriptions: list[str]


def chunks(seed: int, count: int, townships: int, size: int) -> list[Chunk]:
    """Return `count` descriptions in chunks of at most `size`.

    The chunks use the plats of the townships in turn, and are small enough for every township to have a turn.
    """
    size = max(1, min(size, count // townships))
    plats = made_up.plats(seed, townships)
    texts = made_up.descriptions(seed, count)
    made = []
    for begin in range(0, count, size):
        texts_of_chunk = [next(texts) for _ in range(min(size, count - begin))]
        made.append(Chunk(plats[len(made) % townships], texts_of_chunk))
    return made


def answers(chunk: Chunk) -> list[str]:
    """Return the acreage of each description, or its refusal as the program prints it."""
    return [written(answer) for answer in chunk.plat.acres_of(chunk.descriptions)]


def packed(chunk: Chunk) -> bytes:
    """Return a chunk as bytes. Dask passes bytes on whole, but processes every string in a list."""
    return pickle.dumps(chunk)


def answers_packed(chunk: bytes) -> bytes:
    """Return the packed answers to a packed chunk."""
    return pickle.dumps(answers(pickle.loads(chunk)))


def unpacked(answered: list[bytes]) -> list[list[str]]:
    return [pickle.loads(one) for one in answered]


def written(answer: object) -> str:
    if isinstance(answer, township.Refused):
        return f"refused {answer.number} at {answer.at}"
    return str(answer)


def compare(given: list[Chunk], answered: list[list[str]]) -> None:
    """End the program if any answer differs from this process's own."""
    if answered != [answers(chunk) for chunk in given]:
        raise SystemExit("an answer differs from that of one process")
