"""The JSON of a request, with each field checked."""
from __future__ import annotations

import json
from typing import AbstractSet, Any, Callable, Dict, List, NoReturn, Optional, TypeVar

from .._account import ACCOUNTS, Account
from .._lots import Lots
from .._plat import Plat
from .._refused import LOT_TABLE, NOTES, Refused
from .._text import encoded
from .basis import BY_LOTS, Basis, nominal_plat

_SECTIONS = 36


class Invalid(Exception):
    """A request that is not what the interface takes. Its message says why."""


class RefusedBasis(Exception):
    """The refusal of the field notes or the lot table of a request."""

    def __init__(self, refused: Refused, of: str, text: str) -> None:
        super().__init__(str(refused))
        self.refused = refused
        self.of = of
        self.text = text


class Given:
    """The fields of a request."""

    def __init__(self, body: bytes, names: AbstractSet[str]) -> None:
        """Read a body, whose fields may have these names alone. Raise `Invalid` for any other."""
        self._fields = _object_in(body)
        for name in self._fields:
            if name not in names:
                raise Invalid(f"there is no field {json.dumps(name)} here")

    def basis(self) -> Basis:
        """Return the plat of the field notes or the nominal plat of the township, and the lot table if any.

        With a lot table alone, the plat is nominal, and its figures are not shown. Neither are those of field notes if
        the table says where its lots lie: field notes make a plat with the standard lots.

        Raise `RefusedBasis` if the notes or the table are refused.
        """
        notes, township, table = map(self._optional_text, ("notes", "township", "lots"))
        lots = None if table is None else _read(_lots_of, "lots", table)
        is_measured = lots is None or notes is not None or township is not None
        if not is_measured and lots is not None:
            township = str(lots.township)
        if (notes is None) == (township is None):
            raise Invalid("give either `notes` (field notes) or `township` (a nominal township)")
        plat = _nominal(township) if township is not None else _read(_plat_of, "notes", notes or "")
        if lots is not None and lots.township != plat.township:
            raise Invalid(f"the lot table is for {lots.township}, and the plat for {plat.township}")
        return Basis(plat, lots, is_measured and not (lots is not None and lots.has_land))

    def has(self, name: str) -> bool:
        """Return whether there is a field with this name."""
        return self._fields.get(name) is not None

    def text(self, name: str) -> str:
        """Return a text, which must be there."""
        found = self._optional_text(name)
        if found is None:
            raise Invalid(f"the field `{name}` is missing")
        return found

    def flag(self, name: str) -> bool:
        """Return `true` or `false`, which is the default."""
        found = self._fields.get(name, False)
        return found if isinstance(found, bool) else _wrong(name, "true or false")

    def account(self) -> Optional[Account]:
        """Return the account, or `None` for the lot table, which is the default if there is one."""
        found = self._fields.get("account", BY_LOTS if self.has("lots") else "exact")
        for account in ACCOUNTS:
            if account == found:
                return account
        if found == BY_LOTS and self.has("lots"):
            return None
        return _wrong("account", "`exact` or `plat`, or `lots` with a lot table")

    def section(self) -> Optional[int]:
        """Return the number of a section, if there is one."""
        return self._number("section", 1, _SECTIONS)

    def index(self, name: str) -> Optional[int]:
        """Return the index of an item of a list, if there is one."""
        return self._number(name, 0, 1 << 20)

    def texts(self, name: str, most: int) -> List[str]:
        """Return a list of at most so many texts."""
        found = self._list(name, most)
        if not all(isinstance(each, str) for each in found):
            _wrong(name, "a list of texts")
        return found

    def records(self, name: str, fields: AbstractSet[str], most: int) -> List[Dict[str, str]]:
        """Return a list of at most so many objects, whose fields are texts with exactly these names."""
        found = self._list(name, most)
        for each in found:
            if not (isinstance(each, dict) and set(each) == fields):
                _wrong(name, f"a list of objects with the fields {' and '.join(sorted(fields))}")
            if not all(isinstance(text, str) for text in each.values()):
                _wrong(name, "a list of objects whose fields are texts")
        return found

    def _list(self, name: str, most: int) -> List[Any]:
        found = self._fields.get(name)
        if not isinstance(found, list):
            _wrong(name, "a list")
        if len(found) > most:
            raise Invalid(f"the field `{name}` has {len(found):,} items; at most {most:,} are allowed")
        return found

    def _number(self, name: str, least: int, most: int) -> Optional[int]:
        found = self._fields.get(name)
        if found is None:
            return None
        if type(found) is not int or not least <= found <= most:
            _wrong(name, f"a number from {least} to {most}")
        return found

    def _optional_text(self, name: str) -> Optional[str]:
        found = self._fields.get(name)
        return found if found is None or isinstance(found, str) else _wrong(name, "a text")


def _plat_of(notes: str) -> Plat:
    """Return the plat of field notes. `Plat.read` would look whether they are the name of a file on this server."""
    return Plat._of_notes(encoded(notes), NOTES)


def _lots_of(table: str) -> Lots:
    """Return a lot table, without looking for a file either."""
    return Lots._read(encoded(table), LOT_TABLE)


_Read = TypeVar("_Read", Plat, Lots)


def _read(read: Callable[[str], _Read], of: str, text: str) -> _Read:
    try:
        return read(text)
    except Refused as refused:
        raise RefusedBasis(refused, of, text) from refused


def _nominal(township: str) -> Plat:
    try:
        return nominal_plat(township)
    except ValueError as error:
        raise Invalid(str(error)) from error


def _wrong(name: str, wanted: str) -> NoReturn:
    raise Invalid(f"the field `{name}` must be {wanted}")


def _object_in(body: bytes) -> Dict[str, Any]:
    """Return the object that is a body's JSON."""
    try:
        found = json.loads(body.decode("utf-8"), parse_constant=_no_constant)
    except UnicodeDecodeError as error:
        raise Invalid("the body is not UTF-8") from error
    except RecursionError as error:
        raise Invalid("the JSON is nested too deeply") from error
    except ValueError as error:
        raise Invalid("the body is not JSON") from error
    if not isinstance(found, dict):
        raise Invalid("the body must be a JSON object")
    return found


def _no_constant(name: str) -> NoReturn:
    raise ValueError(f"{name} is not JSON")
