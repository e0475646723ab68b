"""HTTP as the server speaks it, and how much of it a browser receives first."""
from __future__ import annotations

import gzip
import json
import sys
from typing import List

from asking import NOMINAL, Interface
from conftest import TOP
from wire import LAND, connected, next_reply, request

sys.path.insert(0, str(TOP / "bench"))
import first_page  # noqa: E402


def answers(office: Interface, sent: bytes, count: int) -> List[bytes]:
    """The bodies of so many answers on one connection."""
    with connected(office) as connection:
        connection.sendall(sent)
        received = connection.makefile("rb")
        return [next_reply(received).body for _ in range(count)]


def test_requests_on_one_connection(office: Interface) -> None:
    """They are answered in their order, even if they arrive all at once."""
    descriptions = [f"sec. {number}." for number in range(1, 37)]
    bodies = [json.dumps({**NOMINAL, "description": each}).encode() for each in descriptions]
    found = answers(office, b"".join(map(request, bodies)), 36)
    assert [json.loads(each)["canonical"].split("\n")[1] for each in found] == [
        f"sec. {number}, all." for number in range(1, 37)
    ]


def test_a_body_in_chunks(office: Interface) -> None:
    head = b"POST /api/v1/land HTTP/1.1\r\nHost: localhost\r\nContent-Type: application/json\r\nTransfer-Encoding: chunked\r\n\r\n"
    middle = len(LAND) // 2
    pieces = (LAND[:middle], LAND[middle:], b"")
    sent = b"".join(b"%x\r\n%s\r\n" % (len(piece), piece) for piece in pieces)
    assert json.loads(answers(office, head + sent, 1)[0])["acres"]["exact"] == "160.00"


def test_a_body_that_waits_to_be_asked_for(office: Interface) -> None:
    with connected(office) as connection:
        connection.sendall(request(b"", length=len(LAND)).replace(b"\r\n\r\n", b"\r\nExpect: 100-continue\r\n\r\n"))
        assert connection.recv(1000) == b"HTTP/1.1 100 Continue\r\n\r\n"
        connection.sendall(LAND)
        assert connection.recv(1000).startswith(b"HTTP/1.1 200 ")


def test_old_clients(office: Interface) -> None:
    """The connection of HTTP/1.0 is closed after the answer, unless it asks otherwise."""
    body = request(LAND).replace(b"HTTP/1.1", b"HTTP/1.0")
    with connected(office) as connection:
        connection.sendall(body)
        received = b"".join(iter(lambda: connection.recv(65_536), b""))
        assert b"\r\nConnection: close\r\n" in received and b'"160.00"' in received
    assert len(answers(office, body.replace(b"Host:", b"Connection: keep-alive\r\nHost:") * 2, 2)) == 2


def test_a_connection_that_is_to_be_closed(office: Interface) -> None:
    with connected(office) as connection:
        connection.sendall(request(LAND).replace(b"Host:", b"Connection: close\r\nHost:"))
        assert b'"160.00"' in b"".join(iter(lambda: connection.recv(65_536), b""))


def test_heads_alone(office: Interface) -> None:
    """HEAD has no body. waitress closes its connection."""
    with connected(office) as connection:
        connection.sendall(b"HEAD / HTTP/1.1\r\nHost: localhost\r\n\r\n")
        received = connection.makefile("rb")
        head = next_reply(received, has_body=False)
        assert head.status == 200 and int(head.headers["content-length"]) > 1000
        assert received.read() == b""


# -- The first page ---------------------------------------------------------------------------------------------------

#: The most bytes that a browser receives when it opens the page for the first time.
FIRST_MOST = 100_000


def test_the_first_page(office: Interface) -> None:
    """All of it is small: its files, as a browser takes them, and the first answers, with the drawing."""
    sizes = first_page.sizes_at(office.address.rstrip("/"))
    assert len(sizes) > 15 and {"", "static/main.js", "static/page.css", "api/v1/land"} <= set(sizes)
    assert sum(sizes.values()) <= FIRST_MOST, sizes


def test_what_is_packed(office: Interface) -> None:
    """It has the same content as what is not, and each says that it depends on what the client takes."""
    body = json.dumps({**NOMINAL, "description": "sec. 14.", "draw": True}).encode()
    for method, path, sent in (("GET", "/", None), ("GET", "/static/main.js", None), ("POST", "/api/v1/land", body)):
        usual = {"Content_Type": "application/json"}
        reply = office.send(method, path, sent, **usual, Accept_Encoding="gzip, deflate, br")
        plain = office.send(method, path, sent, **usual)
        assert reply.headers["content-encoding"] == "gzip" and "content-encoding" not in plain.headers
        assert reply.headers["vary"] == plain.headers["vary"] == "Accept-Encoding"
        assert gzip.decompress(reply.body) == plain.body


def test_how_hard_something_is_packed(office: Interface) -> None:
    """Files, which are packed once, as hard as possible; and short answers not at all."""
    for path in ("/", "/static/main.js", "/static/page.css"):
        packed = office.send("GET", path, Accept_Encoding="gzip").body
        assert len(packed) <= len(gzip.compress(gzip.decompress(packed), 9))
    reply = office.post("land", LAND, Accept_Encoding="gzip")
    assert "content-encoding" not in reply.headers and reply.json["acres"]["exact"] == "160.00"


def test_clients_that_take_nothing_packed(office: Interface) -> None:
    for wanted in ("identity", "gzip;q=0", "br"):
        reply = office.send("GET", "/", Accept_Encoding=wanted)
        assert "content-encoding" not in reply.headers and reply.body.startswith(b"<!doctype html>")
    tag = office.send("GET", "/", Accept_Encoding="gzip").headers["etag"]
    assert office.send("GET", "/", Accept_Encoding="gzip", If_None_Match=tag).status == 304
    assert office.send("GET", "/", If_None_Match=tag).status == 200
