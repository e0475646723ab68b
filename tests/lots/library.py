"""Asks a library that was built from the sources, by ctypes, and with none of the code of the package for Python."""

import ctypes

ACCEPTED, REFUSED = 0, 1

#: More bytes than a lot table has as data, or a canonical text.
_ROOM = 65_536

#: The bytes of land: its rows, the date and the kind of lots, and the township.
_LAND_BYTES = 36 * 32 * 4 + 2 * 4 + 4


class _Answer(ctypes.Structure):
    """township_answer."""

    _fields_ = [(name, ctypes.c_uint32) for name in (
        "verdict", "number", "at", "inner_number", "inner_at", "line", "column", "reserved")]
    _fields_ += [("hundredths", ctypes.c_uint64), ("length", ctypes.c_uint64)]


class _Fraction(ctypes.Structure):
    """township_fraction."""

    _fields_ = [("units_low", ctypes.c_uint64), ("units_high", ctypes.c_uint64), ("over", ctypes.c_uint64)]


class Failed(Exception):
    """The library gives an answer that it must not give."""


class Library:
    """The calls that answer by lot tables."""

    def __init__(self, path):
        self._calls = ctypes.CDLL(path)
        for name in (
            "lots_read", "lots_acres", "lots_area", "lots_land_read", "lots_land_text", "lots_land_acres",
        ):
            getattr(self._calls, f"township_{name}").restype = _Answer
        self._lots = ctypes.create_string_buffer(_ROOM)
        self._text = ctypes.create_string_buffer(_ROOM)
        self._area = _Fraction()

    def read(self, table):
        """Read a lot table, which the other calls are then about. Return its refusal, or None."""
        answer = self._calls.township_lots_read(table, ctypes.c_size_t(len(table)), self._lots)
        return self._refusal(answer)

    def acres(self, description):
        """The refusal of a description and 0, or None and its acreage in hundredths."""
        answer = self._calls.township_lots_acres(self._lots, description, ctypes.c_size_t(len(description)))
        return self._refusal(answer), answer.hundredths

    def area(self, description):
        """The exact acreage of a description that is accepted: the integers above and below the fraction bar."""
        length = ctypes.c_size_t(len(description))
        answer = self._calls.township_lots_area(self._lots, description, length, ctypes.byref(self._area))
        if self._refusal(answer) is not None:
            raise Failed(f"the area is refused: {answer.number} at {answer.at}")
        return (self._area.units_high << 64) + self._area.units_low, self._area.over * 10_000_000

    def text(self, description):
        """The canonical text of a description that is accepted, which is read back as the same land."""
        land = self._land(description)
        answer = self._calls.township_lots_land_text(self._lots, land, self._text, ctypes.c_size_t(_ROOM))
        if answer.verdict != ACCEPTED:
            raise Failed(f"the canonical text has the verdict {answer.verdict}")
        text = self._text.raw[: answer.length]
        if self._land(text) != land:
            raise Failed(f"the canonical text is read as other land: {text.decode()}")
        return text.decode()

    def land_acres(self, description):
        """The refusal of the land of a description that is accepted and 0, or None and its acreage in hundredths."""
        answer = self._calls.township_lots_land_acres(self._lots, self._land(description))
        return self._refusal(answer), answer.hundredths

    def _land(self, description):
        """The land of a description that is accepted, as data."""
        land = ctypes.create_string_buffer(_LAND_BYTES)
        length = ctypes.c_size_t(len(description))
        answer = self._calls.township_lots_land_read(self._lots, description, length, land)
        if self._refusal(answer) is not None:
            raise Failed(f"the land is refused: {answer.number} at {answer.at}")
        return land.raw

    def _refusal(self, answer):
        if answer.verdict == ACCEPTED:
            return None
        if answer.verdict != REFUSED:
            raise Failed(f"the verdict is {answer.verdict}")
        return answer.number, answer.at
