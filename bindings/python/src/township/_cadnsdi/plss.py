"""The identifiers of townships and of sections (PLSSID and FRSTDIVID)."""
from __future__ import annotations

import functools
import re
from typing import Dict, NamedTuple, Optional, cast

from .._township import EastWest, NorthSouth, Township

_PLSS_ID = re.compile(
    "(?P<state>[A-Z]{2})(?P<meridian>[0-9]{2})"
    "(?P<number>[0-9]{3})(?P<fraction>[0-9])(?P<north_south>[NS])"
    "(?P<range>[0-9]{3})(?P<range_fraction>[0-9])(?P<east_west>[EW])(?P<duplicate>[0-9A-Z])"
)

#: The number of characters of a PLSSID, with which a FRSTDIVID begins.
PLSS_ID_LENGTH = 15

_DIVISION_ID = re.compile("(?P<type>[A-Z]{2})(?P<number>[0-9]{2})(?P<duplicate>[0-9A-Z])")

#: The principal meridians by their codes, as a folder of `batch --plats` names them.
_MERIDIANS: Dict[str, str] = {
    "01": "1st PM",
    "02": "2nd PM",
    "03": "3rd PM",
    "04": "4th PM",
    "05": "5th PM",
    "06": "6th PM",
    "07": "Black Hills",
    "08": "Boise",
    "09": "Chickasaw",
    "10": "Choctaw",
    "11": "Cimarron",
    "12": "Copper River",
    "13": "Fairbanks",
    "14": "Gila and Salt River",
    "15": "Humboldt",
    "16": "Huntsville",
    "17": "Indian",
    "18": "Louisiana",
    "19": "Michigan",
    "20": "Principal",
    "21": "Mount Diablo",
    "22": "Navajo",
    "23": "New Mexico",
    "24": "St. Helena",
    "25": "St. Stephens",
    "26": "Salt Lake",
    "27": "San Bernardino",
    "28": "Seward",
    "29": "Tallahassee",
    "30": "Uintah",
    "31": "Ute",
    "32": "Washington",
    "33": "Willamette",
    "34": "Wind River",
    "44": "Kateel River",
    "45": "Umiat",
}


class PlssId(NamedTuple):
    """A township with whole numbers of which there is only one."""

    text: str
    #: The code of its principal meridian.
    meridian: str
    township: Township

    @property
    def meridian_name(self) -> str:
        """The name of the principal meridian, as a folder has it."""
        return _MERIDIANS.get(self.meridian, f"meridian {self.meridian}")


class Unusable(ValueError):
    """A text that cannot be used, and why."""


@functools.lru_cache(maxsize=1 << 14)
def plss_id_of(text: str) -> PlssId:
    """Read a PLSSID. Raise `Unusable` if it is not one, or if no lot table can be for it.

    >>> plss_id_of("ID080020N0030W0").township
    Township(number=2, north_south='N', range=3, east_west='W')
    """
    found = _PLSS_ID.fullmatch(text)
    if found is None:
        fault = f"`{text}` is not the identifier of a township, such as ID080020N0030W0"
        raise Unusable(fault if text else "the identifier of the township is missing")
    if found["fraction"] != "0" or found["range_fraction"] != "0":
        raise Unusable("the township has a fraction in its number or range: a lot table cannot name it")
    if found["duplicate"] != "0":
        raise Unusable("the township is a duplicate: a lot table cannot say which of several it is")
    sides = cast(NorthSouth, found["north_south"]), cast(EastWest, found["east_west"])
    try:
        township = Township(int(found["number"]), sides[0], int(found["range"]), sides[1])
    except ValueError as error:
        raise Unusable(str(error)) from error
    return PlssId(text, found["meridian"], township)


class Division(NamedTuple):
    """What the identifier of a first division says besides its township."""

    type: str
    number: str
    duplicate: str


def division_of(division_id: str) -> Optional[Division]:
    """Return what a FRSTDIVID says besides its township, or `None` if it is not one.

    >>> division_of("ID080020N0030W0SN140")
    Division(type='SN', number='14', duplicate='0')
    """
    found = _DIVISION_ID.fullmatch(division_id[PLSS_ID_LENGTH:])
    return Division(found["type"], found["number"], found["duplicate"]) if found else None
