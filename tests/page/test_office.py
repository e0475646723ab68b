"""Served for an office: nobody waits for another user, whatever that user sends, or does not read."""
from __future__ import annotations

import base64
import contextlib
import http.client
import json
import resource
import socket
import threading
import time
from typing import Dict, Optional, Tuple

import pytest

from asking import Interface
from wire import LAND, SECONDS_MOST, WAIT_MOST, complete, connected, lasting, longest_wait, many, next_reply, raw, request

#: The most bytes of memory that the server may take for what is not read, for all connections together.
MEMORY_MOST = 150 * 1024 * 1024


# -- Slow senders -----------------------------------------------------------------------------------------------------


@pytest.mark.parametrize("begins", [b"POST /api/v1/land HTTP/1.1\r\nX: ", request(b"", length=1 << 20)], ids=["head", "body"])
def test_slow_senders(office: Interface, begins: bytes) -> None:
    """Beside 200 users who send a byte now and then, one more waits a second at most."""
    with many(200, office) as senders:
        for sender in senders:
            sender.sendall(begins)
        ended = threading.Event()

        def send() -> None:
            while not ended.wait(0.5):
                for sender in senders:
                    with contextlib.suppress(OSError):
                        sender.send(b"1")

        sending = threading.Thread(target=send)
        sending.start()
        try:
            assert longest_wait(office, lasting(5)) < WAIT_MOST
        finally:
            ended.set()
            sending.join()


def test_many_idle_connections(office: Interface) -> None:
    """Beside 800 connections that do nothing, one more user waits a second at most."""
    with many(800, office) as idle:
        assert longest_wait(office, lasting(1)) < WAIT_MOST
        idle[-1].sendall(request(LAND))
        assert idle[-1].recv(1000).startswith(b"HTTP/1.1 200 ")


def test_more_connections_than_there_may_be(office: Interface) -> None:
    """A further one waits until those are closed that have done nothing for 10 seconds."""
    from township._web.limits import CONNECTIONS_MOST

    most = resource.getrlimit(resource.RLIMIT_NOFILE)[1]
    resource.setrlimit(resource.RLIMIT_NOFILE, (most, most))
    begin = time.monotonic()
    with many(CONNECTIONS_MOST + 100, office) as idle:
        assert office.post("land", LAND).status == 200
        assert SECONDS_MOST - 1 < time.monotonic() - begin < 2 * SECONDS_MOST
        assert idle[0].recv(1000) == b""


def test_much_that_is_not_sent_to_the_end(office: Interface) -> None:
    """Users who send all but the last byte of the largest body take little memory, and little room in files."""
    from township._web.limits import HELD_MOST, PROCESSES

    complete(office)
    before = office.memory()
    body = request(b" " * ((2 << 20) - 1), length=2 << 20)
    most = 1.1 * HELD_MOST * PROCESSES
    count = 50 * PROCESSES
    assert count * len(body) > most
    with many(count, office) as senders:
        for sender in senders:
            # Those whose room others need are closed.
            with contextlib.suppress(OSError):
                sender.sendall(body)
        assert longest_wait(office, lasting(3)) < WAIT_MOST
        assert office.memory() - before < MEMORY_MOST
        assert office.in_files() < most


def test_little_that_is_not_sent_to_the_end(office: Interface) -> None:
    """Who has sent few bytes is not cut off because others have sent many."""
    body = request(b" " * ((2 << 20) - 1), length=2 << 20)
    with connected(office) as first:
        first.sendall(request(LAND)[:-1])
        with many(60, office) as senders:
            for sender in senders:
                with contextlib.suppress(OSError):
                    sender.sendall(body)
            first.sendall(LAND[-1:])
            assert next_reply(first.makefile("rb")).json["acres"]["exact"] == "160.00"


def test_a_request_that_does_not_arrive(office: Interface) -> None:
    """It is refused in JSON after 10 seconds, and so are its connection's further bytes."""
    begin = time.monotonic()
    reply = raw(office, request(b"{", length=100))
    assert SECONDS_MOST - 1 < time.monotonic() - begin < SECONDS_MOST + 2
    assert reply.status == 408 and "10 seconds" in reply.json["error"]


# -- Slow readers -----------------------------------------------------------------------------------------------------

#: A request whose answer is much longer than itself, and takes little work: six characters for each byte of a file.
BYTES = 600_000
LONG = request(json.dumps({"data": base64.b64encode(b"\1" * BYTES).decode()}).encode(), "file")


def test_answers_that_nobody_reads(office: Interface) -> None:
    """60 of them take little memory, and one more user waits a second at most."""
    before = office.memory()
    seen = [(0.0, 0)]
    with many(60, office, room=4096) as readers:
        for reader in readers:
            reader.sendall(LONG)

        def lasts() -> bool:
            if time.monotonic() > seen[-1][0] + 0.5:
                seen.append((time.monotonic(), office.memory()))
            return during()

        during = lasting(SECONDS_MOST + 2)
        assert longest_wait(office, lasts) < WAIT_MOST
        assert max(memory for _, memory in seen) - before < MEMORY_MOST
        begun = [received_by(reader) for reader in readers]
        # Some have been answered, and of these, some connections have been closed since.
        assert sum(each.startswith(b"HTTP/1.1 200 ") for each in begun) >= 3 and None not in begun


def received_by(reader: socket.socket) -> Optional[bytes]:
    """What has arrived already: nothing if the connection was closed, and `None` if it is still waited for."""
    try:
        return reader.recv(1000, socket.MSG_DONTWAIT)
    except BlockingIOError:
        return None
    except OSError:
        return b""


def read_slowly(server: Interface, seconds: float) -> Tuple[int, int]:
    """Read an answer so slowly for some seconds, and then the rest. Return its length, and how much of it arrived."""
    with connected(server, room=4096) as reader:
        reader.sendall(LONG)
        received = http.client.HTTPResponse(reader)
        received.begin()
        size = 0
        end = time.monotonic() + seconds
        while time.monotonic() < end:
            size += len(received.read(1000))
            time.sleep(0.1)
        with contextlib.suppress(http.client.IncompleteRead, ConnectionError):
            while True:
                piece = received.read(65_536)
                if not piece:
                    break
                size += len(piece)
        return int(received.headers["Content-Length"]), size


def test_an_answer_that_is_read_too_slowly(slow: Interface) -> None:
    """After some seconds, fewer here than elsewhere, its connection is closed, even if its reader goes on reading."""
    length, size = read_slowly(slow, 2)
    assert size == length > 6 * BYTES
    length, size = read_slowly(slow, 8)
    assert size < length


def test_an_answer_that_is_read_slowly(office: Interface) -> None:
    """It arrives whole if its reader goes on reading."""
    with connected(office, room=65_536) as reader:
        reader.sendall(LONG)
        received = http.client.HTTPResponse(reader)
        received.begin()
        length = int(received.headers["Content-Length"])
        assert length > 6 * BYTES
        pieces = []
        while sum(map(len, pieces)) < length:
            piece = received.read(length // 20)
            assert piece
            pieces.append(piece)
            time.sleep(0.2)
        assert json.loads(b"".join(pieces))["text"] == "\1" * BYTES


# -- What the server says ---------------------------------------------------------------------------------------------

#: Bytes that are no request, with the status of the error.
NO_REQUESTS: Dict[str, Tuple[bytes, int]] = {
    "no request": (b"hello\r\n\r\n", 400),
    "a header without a name": (b"GET / HTTP/1.1\r\nHost: localhost\r\n: 1\r\n\r\n", 400),
    "a length that is none": (b"POST / HTTP/1.1\r\nHost: localhost\r\nContent-Length: -1\r\n\r\n", 400),
    "a large head": (b"GET / HTTP/1.1\r\nHost: localhost\r\nX: " + b"1" * 20_000 + b"\r\n\r\n", 431),
    "a large body": (request(b"", length=(2 << 20) + 1), 413),
    "an unknown coding": (b"POST / HTTP/1.1\r\nHost: localhost\r\nTransfer-Encoding: gzip\r\n\r\n", 501),
    "bad chunks": (b"POST / HTTP/1.1\r\nHost: localhost\r\nTransfer-Encoding: chunked\r\n\r\nx\r\n", 400),
}


@pytest.mark.parametrize("sent, status", NO_REQUESTS.values(), ids=NO_REQUESTS)
def test_errors_of_the_server(office: Interface, sent: bytes, status: int) -> None:
    """They are JSON, with the headers of all answers, whoever finds them."""
    reply = raw(office, sent)
    assert reply.status == status
    assert set(reply.json) == {"error"} and reply.headers["content-type"] == "application/json"
    usual = office.post("land", b"{}").headers
    assert usual["content-security-policy"] and usual["x-frame-options"]
    others = ("content-length", "date", "connection")
    assert {name: value for name, value in reply.headers.items() if name not in others} == {
        name: value for name, value in usual.items() if name not in others
    }


def test_no_line_for_each_request(office: Interface) -> None:
    """However many requests wait, the server prints its address alone."""
    with many(100, office) as clients:
        for client in clients:
            client.sendall(request(LAND))
        for client in clients:
            assert client.recv(1000).startswith(b"HTTP/1.1 200 ")
    assert office.said() == [f"township: {office.address} (Ctrl-C stops it)"]
