"""Connections to the server that is tested, byte by byte, and how long others wait meanwhile."""
from __future__ import annotations

import contextlib
import json
import socket
import threading
import time
from typing import IO, Callable, Iterator, List, Sequence

from asking import NOMINAL, Interface, Reply
from strain import Strain

#: The seconds within which a request ends, and those that another user may wait.
SECONDS_MOST = 10
WAIT_MOST = 1.0

LAND = json.dumps({**NOMINAL, "description": "sec. 14, NE1/4."}).encode()


def complete(server: Interface) -> None:
    """Wait until all processes of the server have begun."""
    from township._web.limits import PROCESSES

    for _ in range(200):
        if len(server.processes()) == PROCESSES + 1:
            return
        time.sleep(0.1)
    raise AssertionError(server.processes())


def replaced(server: Interface, before: List[int]) -> None:
    """Wait until one of the processes has been replaced, and what it did has ended."""
    for _ in range(100):
        after = server.processes()
        if len(set(before) - set(after)) == len(set(after) - set(before)) == 1:
            break
        time.sleep(0.2)
    assert len(set(before) - set(after)) == len(set(after) - set(before)) == 1
    worked = server.seconds_worked()
    time.sleep(2)
    assert server.seconds_worked() - worked < 0.5


def connected(server: Interface, room: int = 0) -> socket.socket:
    """A connection to the server, with so much room for what arrives, if that is said."""
    connection = socket.socket()
    if room:
        connection.setsockopt(socket.SOL_SOCKET, socket.SO_RCVBUF, room)
    connection.settimeout(30)
    connection.connect(("127.0.0.1", server.port))
    return connection


@contextlib.contextmanager
def many(count: int, server: Interface, room: int = 0) -> Iterator[List[socket.socket]]:
    """So many connections, which are closed at the end."""
    with contextlib.ExitStack() as closing:
        yield [closing.enter_context(connected(server, room)) for _ in range(count)]


def request(body: bytes, kind: str = "land", length: int = -1) -> bytes:
    """A request, which says that its body has this length."""
    size = len(body) if length < 0 else length
    head = f"POST /api/v1/{kind} HTTP/1.1\r\nHost: localhost\r\nContent-Type: application/json\r\nContent-Length: {size}"
    return head.encode() + b"\r\n\r\n" + body


def longest_wait(server: Interface, during: Callable[[], bool], least: int = 5) -> float:
    """The longest time that one more user waits for an answer meanwhile, divided by the strain of the machine."""
    waited: List[float] = []
    strain = Strain()
    while during() or len(waited) < least:
        begin = time.monotonic()
        reply = server.post("land", LAND)
        waited.append(time.monotonic() - begin)
        assert reply.json["acres"]["exact"] == "160.00"
        strain.look()
        time.sleep(0.02)
    return max(waited) / strain.factor()


def lasting(seconds: float) -> Callable[[], bool]:
    """Whether so many seconds are not over yet."""
    end = time.monotonic() + seconds
    return lambda: time.monotonic() < end


def is_running(threads: Sequence[threading.Thread]) -> Callable[[], bool]:
    return lambda: any(thread.is_alive() for thread in threads)


def raw(server: Interface, sent: bytes) -> Reply:
    """What the server answers to these bytes, until it closes the connection."""
    with connected(server) as connection:
        connection.sendall(sent)
        return next_reply(connection.makefile("rb"))


def next_reply(received: IO[bytes], has_body: bool = True) -> Reply:
    """The next of the answers on a connection."""
    version, status, _ = received.readline().decode().split(" ", 2)
    assert version in ("HTTP/1.0", "HTTP/1.1")
    lines = iter(lambda: received.readline().decode().rstrip("\r\n"), "")
    headers = {name.lower(): value for name, _, value in (line.partition(": ") for line in lines)}
    return Reply(int(status), headers, received.read(int(headers["content-length"])) if has_body else b"")
