"""The address by which others reach this computer."""
from __future__ import annotations

import ipaddress
import socket

#: An address of documents, for which no computer listens. Nothing is sent to it.
_ELSEWHERE = {4: ("192.0.2.1", 9), 6: ("2001:db8::1", 9)}


def is_address(host: str) -> bool:
    """Return whether a host is an address, and not a name.

    >>> is_address("127.0.0.1"), is_address("::1"), is_address("localhost")
    (True, True, False)
    """
    try:
        ipaddress.ip_address(host.partition("%")[0])
    except ValueError:
        return False
    return True


def reached_at(listening: str) -> str:
    """Return an address at which a server answers that listens at this one, which may stand for all of this computer.

    >>> reached_at("127.0.0.2")
    '127.0.0.2'
    """
    address = ipaddress.ip_address(listening.partition("%")[0])
    if not address.is_unspecified:
        return listening
    family = socket.AF_INET if address.version == 4 else socket.AF_INET6
    with socket.socket(family, socket.SOCK_DGRAM) as probe:
        try:
            # The system chooses its own address for what would be sent.
            probe.connect(_ELSEWHERE[address.version])
            return str(probe.getsockname()[0])
        except OSError:
            return "127.0.0.1" if address.version == 4 else "::1"
