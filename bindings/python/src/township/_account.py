"""Accounts: how a whole lot counts in an acreage."""
from __future__ import annotations

from typing import Dict, Literal

from . import _library

#: How a whole lot counts: at its exact area, or at the acreage printed on the plat.
Account = Literal["exact", "plat"]

#: The library's code for each account.
ACCOUNTS: Dict[Account, int] = {"exact": _library.EXACT, "plat": _library.BY_PLAT}


def code_of(account: Account) -> int:
    """Return the library's code for an account. Raise `ValueError` for any other value."""
    code = ACCOUNTS.get(account)
    if code is None:
        raise ValueError(f"no account {account!r}: the accounts are 'exact' and 'plat'")
    return code
