"""Requests that a careless or hostile program sends: each gets its error, and none harms the server."""
from __future__ import annotations

import json
import random
import socket
import threading
import time
from typing import Dict, Iterator, Tuple

import pytest

from asking import NOMINAL, Interface
from strain import Strain

MOST = 2 * 1024 * 1024

#: Requests that are not valid, with their status.
INVALID = [
    (b"", 400),
    (b"{", 400),
    (b"[]", 400),
    (b"null", 400),
    (b'"sec. 14."', 400),
    (b"\xff\xfe", 400),
    (b'{"township":"T. 2 N., R. 3 W.","description":"\xff"}', 400),
    (b"[" * 100_000, 400),
    (b'{"a":' * 100_000 + b"1" + b"}" * 100_000, 400),
    (b'{"township":NaN}', 400),
    (b'{"township":' + b"9" * 10_000 + b"}", 400),
    (b'{"township":"T. 100 N., R. 3 W.","description":"sec. 14."}', 400),
    (b'{"township":"T. 2 N., R. 3 W."}', 400),
    (b'{"notes":"","township":"T. 2 N., R. 3 W.","description":"sec. 14."}', 400),
    (b'{"description":"sec. 14."}', 400),
    (b'{"township":"T. 2 N., R. 3 W.","description":14}', 400),
    (b'{"township":"T. 2 N., R. 3 W.","description":"sec. 14.","section":37}', 400),
    (b'{"township":"T. 2 N., R. 3 W.","description":"sec. 14.","section":true}', 400),
    (b'{"township":"T. 2 N., R. 3 W.","description":"sec. 14.","draw":1}', 400),
    (b'{"township":"T. 2 N., R. 3 W.","description":"sec. 14.","__proto__":1}', 400),
]


@pytest.mark.parametrize("body, status", INVALID, ids=[f"{each[:30]!r}" for each, _ in INVALID])
def test_invalid_requests(server: Interface, body: bytes, status: int) -> None:
    reply = server.post("land", body)
    assert reply.status == status
    assert set(reply.json) == {"error"}


def test_a_body_that_is_too_large(server: Interface) -> None:
    """It is refused by its length alone, before it is sent."""
    with socket.create_connection(("127.0.0.1", server.port), timeout=30) as connection:
        connection.sendall(f"POST /api/v1/land HTTP/1.1\r\nHost: localhost\r\nContent-Length: {MOST + 1}\r\n\r\n".encode())
        assert connection.recv(100).startswith(b"HTTP/1.1 413 ")


def test_the_largest_body(server: Interface) -> None:
    frame = json.dumps({**NOMINAL, "description": ""}).encode()
    body = frame.replace(b'""', b'"' + b" " * (MOST - len(frame)) + b'"')
    assert len(body) == MOST
    # 41: the description exceeds 65,536 bytes.
    assert server.post("land", body).json["refused"]["number"] == 41


def test_other_hosts(server: Interface) -> None:
    for host in ("example.com", f"example.com:{server.port}", "", "127.0.0.1.example.com", "localhost.example.com"):
        assert server.send("GET", "/", Host=host).status == 421
    for host in ("localhost", "LOCALHOST:80", f"127.0.0.1:{server.port}", "[::1]:8036"):
        assert server.send("GET", "/", Host=host).status == 200


def test_pages_of_other_hosts(server: Interface) -> None:
    body = json.dumps({**NOMINAL, "description": "sec. 14."}).encode()
    for origin in ("https://example.com", "null", "http://127.0.0.1.example.com", "http://[", ""):
        assert server.post("land", body, Origin=origin).status == 403
    assert server.post("land", body, Origin=server.address[:-1]).status == 200


def test_other_methods_and_types(server: Interface) -> None:
    for method in ("GET", "PUT", "DELETE", "OPTIONS", "PATCH", "TRACE"):
        assert server.send(method, "/api/v1/land").status == 405
    assert server.send("POST", "/", b"{}", Content_Type="application/json").status == 405
    for kind in ("text/plain", "application/x-www-form-urlencoded", "multipart/form-data", "application/jsonx"):
        assert server.post("land", b"{}", Content_Type=kind).status == 415


def test_other_paths(server: Interface) -> None:
    for path in ("/static/../app.py", "/static/%2e%2e/app.py", "/static//etc/passwd", "/static/", "/api/v1/", "/api/v1/land/"):
        assert server.send("GET", path).status == 404


def test_headers(server: Interface) -> None:
    replies = [server.send("GET", path) for path in ("/", "/static/main.js", "/none", "/api/v1/openapi.json")]
    replies.append(server.post("land", b"{}"))
    for reply in replies:
        policy = reply.headers["content-security-policy"]
        assert "default-src 'none'" in policy and "frame-ancestors 'none'" in policy
        assert "unsafe" not in policy and "http" not in policy
        assert reply.headers["x-content-type-options"] == "nosniff"
        assert reply.headers["x-frame-options"] == "DENY"
        assert "access-control-allow-origin" not in reply.headers
        assert "server" not in reply.headers


def test_files_are_sent_once(server: Interface) -> None:
    tag = server.send("GET", "/static/main.js").headers["etag"]
    assert server.send("GET", "/static/main.js", If_None_Match=tag).status == 304


def test_markup_in_input_stays_text(server: Interface) -> None:
    bad = "<script>alert(1)</script>\u202e"
    for fields in ({"description": bad}, {"description": "sec. 14."}):
        answer = server.ask("land", **NOMINAL, **fields, draw=True)
        assert "<script" not in answer["svg"]
    tracts = [{"name": bad, "description": "sec. 14."}]
    drawn = server.ask("report", **NOMINAL, tracts=tracts, selected=0, draw=True)["svg"]
    assert "&lt;script&gt;" in drawn and "\u202e" not in drawn


def test_files_of_the_server_are_not_looked_for(server: Interface) -> None:
    """Nobody learns from a refusal whether a file exists."""
    for field in ("notes", "lots"):
        there, missing = (server.ask("plat", **{field: name})["refused"] for name in ("/etc/passwd", "/etc/passwq"))
        assert there["explanation"].replace("passwd", "passwq") == missing["explanation"]
        assert "name of a file" not in there["explanation"]


def test_a_request_that_never_ends(server: Interface) -> None:
    """However steadily it arrives, it is cut after 10 seconds."""
    with socket.create_connection(("127.0.0.1", server.port), timeout=30) as connection:
        begin = time.monotonic()
        connection.sendall(b"POST /api/v1/land HTTP/1.1\r\nHost: localhost\r\nContent-Length: 1000\r\n\r\n")
        with pytest.raises(OSError):
            while time.monotonic() < begin + 20:
                connection.sendall(b" ")
                time.sleep(0.25)
        assert 9 < time.monotonic() - begin < 14


def test_the_largest_answers_in_time(server: Interface) -> None:
    """The most work that a request can ask for takes a processor less than its 10 seconds."""
    corners = ("NE1/4", "NW1/4", "SW1/4", "SE1/4")
    parts = ["".join(corners[k >> 2 * step & 3] for step in range(5)) for k in range(1000)]
    tracts = [{"name": str(k), "description": f"sec. 8; sec. 9, {part}"} for k, part in enumerate(parts)]
    requests = [
        ("batch", {"descriptions": ["sec. 5, N1/2"] * 50_000}),
        ("batch", {"descriptions": [f"sec. 14: NE{k}" for k in range(50_000)]}),
        ("batch", {"descriptions": ["sec. 14: NE\u00bcNE\u00bc SW\u00bcSW\u00bc"] * 40_000}),
        ("report", {"tracts": tracts, "draw": True}),
        ("suggest", {"text": "NENE" * 16_384, "draw": True}),
        ("suggest", {"text": "sec. 14: NE4" + " NE4-" * 13_000, "draw": True}),
        ("suggest", {"text": "(" * 65_000, "draw": True}),
        ("suggest", {"text": "a " * 32_000, "ignore": ["a" * 655] * 99 + ["a"]}),
        ("land", {"description": f"sec. 8, {', '.join(parts)}", "draw": True}),
    ]
    for kind, fields in requests:
        begin = server.seconds_worked()
        answer = server.ask(kind, **NOMINAL, **fields)
        assert server.seconds_worked() - begin < 10, kind
    assert len(answer["svg"]) <= 200_000


#: The most seconds of a processor for a request that is small, and so is not answered with an error when it takes long.
SMALL_MOST = 1.0


def test_the_largest_answers_to_small_requests(server: Interface) -> None:
    """The most work that a small request can ask for takes a processor little time."""
    tracts = [{"name": "", "description": "secs. 1-36, all."}] * 180
    refused = [{"name": "", "description": "("}] * 260
    requests = [
        ("batch", {"descriptions": [""] * 2_600}),
        ("batch", {"descriptions": ["sec. 5, N1/2"] * 500}),
        ("report", {"tracts": tracts, "draw": True}),
        ("report", {"tracts": refused, "draw": True}),
        ("report", {"list": "secs. 1 to 36, all.\n" * 380, "draw": True}),
        ("suggest", {"text": "NENE" * 2_000, "draw": True}),
        ("suggest", {"text": "sec. 14: NE4" + " NE4-" * 1_500, "draw": True}),
        ("suggest", {"text": "(" * 8_000, "draw": True}),
        ("compare", {"first": "(" * 4_000, "second": "sec. 1; " * 480, "draw": True}),
        ("land", {"description": "sec. 8, " + "NE1/4NE1/4NE1/4, " * 450 + "W1/2", "draw": True}),
    ]
    for kind, fields in requests:
        body = json.dumps({**NOMINAL, **fields}, separators=(",", ":")).encode()
        assert 6 * 1024 < len(body) <= 8 * 1024, (kind, len(body))
        begin = server.seconds_worked()
        assert server.post(kind, body).status == 200, (kind, fields)
        assert server.seconds_worked() - begin < SMALL_MOST, kind


def test_a_large_report_holds_no_other_request_up(server: Interface) -> None:
    """While the overlaps of 1,000 whole townships are found, which is the most that there can be, others are answered."""
    tracts = [{"name": str(k), "description": "secs. 1 to 36, all."} for k in range(1000)]
    answers = []
    report = threading.Thread(target=lambda: answers.append(server.ask("report", **NOMINAL, tracts=tracts)))
    begin = server.seconds_worked()
    strain = Strain()
    report.start()
    waited = []
    while report.is_alive():
        asked = time.monotonic()
        assert server.ask("land", **NOMINAL, description="sec. 14.")["acres"]["exact"] == "640.00"
        waited.append(time.monotonic() - asked)
        strain.look()
        time.sleep(0.02)
    report.join()
    assert answers[0]["overlapping"] == 499_500 and len(answers[0]["overlaps"]) == 1_000
    assert server.seconds_worked() - begin < 10
    assert len(waited) > 5 and max(waited) < 0.5 * strain.factor()


def test_many_hostile_requests(server: Interface) -> None:
    """Of 10,000, none is answered with an internal error, and the server's memory does not grow."""
    random.seed(1036)
    grown = []
    for _ in range(2):
        for method, kind, body, headers in _hostile(5_000):
            reply = server.send(method, f"/api/v1/{kind}", body, **headers)
            assert reply.status in (200, 400, 403, 404, 405, 413, 415, 421), reply.body
        grown.append(server.memory())
    assert grown[1] - grown[0] < 8 * 1024 * 1024
    assert server.ask("land", **NOMINAL, description="sec. 14.")["acres"]["exact"] == "640.00"


def _hostile(count: int) -> Iterator[Tuple[str, str, bytes, Dict[str, str]]]:
    description = json.dumps({**NOMINAL, "description": "sec. 14, NE1/4."}).encode()
    text = json.dumps({**NOMINAL, "text": "NENE, S2NE4 Sec 14-2N-3W (Boise Meridian)"}).encode()
    for _ in range(count):
        method = random.choice(["POST"] * 9 + ["PUT"])
        kind = random.choice(["plat", "land", "compare", "suggest", "report", "batch", "file", "none"])
        frame = text if kind == "suggest" else description
        damaged = bytearray(frame)
        for _ in range(random.randrange(1, 8)):
            damaged[random.randrange(len(damaged))] = random.randrange(256)
        body = random.choice(
            [bytes(damaged), random.randbytes(1000), b"[" * 50_000, frame * 2, b'{"notes":"' + b"9" * 100_000 + b'"}']
        )
        usual = {"Content_Type": "application/json"}
        other = [{"Host": "example.com"}, {"Origin": "http://example.com"}, {"Content_Type": "text/plain"}]
        yield method, kind, body, {**usual, **random.choice([{}, {}, {}, *other])}


def test_nothing_is_logged(server: Interface) -> None:
    """The server has printed one line, with its address, and no description since."""
    server.ask("land", **NOMINAL, description="sec. 14.")
    server.post("land", b'{"secret":1}')
    [line] = server.said()
    assert line == f"township: {server.address} (Ctrl-C stops it)"


def test_idle_connections(server: Interface) -> None:
    """More connections than are allowed at a time: others wait until the idle ones are closed."""
    idle = [socket.create_connection(("127.0.0.1", server.port), timeout=30) for _ in range(100)]
    try:
        begin = time.monotonic()
        assert server.ask("land", **NOMINAL, description="sec. 14.")["acres"]["exact"] == "640.00"
        assert time.monotonic() - begin < 25
    finally:
        for connection in idle:
            connection.close()
