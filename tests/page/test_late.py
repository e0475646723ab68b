"""Requests that take long, or never end: nobody waits for them, and they are answered in time."""
from __future__ import annotations

import functools
import json
import os
import signal
import subprocess
import sys
import threading
import time
from pathlib import Path
from typing import IO, Dict, List, Tuple

import pytest

from asking import NOMINAL, Interface, Reply
from conftest import TOP, port_in, started
from strain import Strain
from wire import LAND, SECONDS_MOST, WAIT_MOST, complete, connected, is_running, lasting, longest_wait, replaced, request


def replies_to(server: Interface, kind: str, body: bytes, count: int = 1) -> List[Tuple[float, Reply]]:
    """The replies to as many equal requests at a time, with their seconds. Each comes in time, and one more user waits a
    second at most.
    """
    replies: List[Tuple[float, Reply]] = []

    def ask() -> None:
        begin = time.monotonic()
        reply = server.post(kind, body)
        replies.append((time.monotonic() - begin, reply))

    asking = [threading.Thread(target=ask) for _ in range(count)]
    strain = Strain()
    for each in asking:
        each.start()
    assert longest_wait(server, is_running(asking)) < WAIT_MOST
    assert len(replies) == count
    assert all(seconds < SECONDS_MOST + strain.factor() for seconds, _ in replies)
    return replies


def test_large_reports_hold_no_other_request_up(office: Interface) -> None:
    """While the overlaps of 1,000 whole townships are found for several users, one more waits a second at most."""
    tracts = [{"name": str(k), "description": "secs. 1 to 36, all."} for k in range(1000)]
    body = json.dumps({**NOMINAL, "tracts": tracts}).encode()
    # On a busy machine, some of them are not answered in time: they end all the same.
    for _, reply in replies_to(office, "report", body, 8):
        if reply.status == 200:
            assert reply.json["overlapping"] == 499_500 and len(reply.json["overlaps"]) == 1_000
        else:
            assert reply.status == 503 and "10 seconds" in reply.json["error"]
    # One that is alone is answered in time on any machine.
    assert office.post("report", body).json["overlapping"] == 499_500


@pytest.mark.parametrize("kind", ["spin", "wait"])
def test_a_request_that_does_not_end(slow: Interface, kind: str) -> None:
    """It is answered after 10 seconds, with an error in JSON; its process is ended later, and another one begins."""
    before = slow.processes()
    [(seconds, reply)] = replies_to(slow, kind, b" " * 10_000)
    assert seconds > SECONDS_MOST - 1
    assert reply.status == 503 and "10 seconds" in reply.json["error"]
    replaced(slow, before)


def test_a_request_that_ends_late(slow: Interface) -> None:
    """It is answered with an error in time; its computation goes on, and its process with it."""
    before = slow.processes()
    strain = Strain()
    begin = time.monotonic()
    assert slow.post("late", b" " * 10_000).status == 503
    assert time.monotonic() - begin < SECONDS_MOST + strain.factor()
    # Longer than it still takes, and than a computation that never ends is left alone.
    time.sleep(6)
    assert slow.processes() == before


def test_a_small_request_that_does_not_end(slow: Interface) -> None:
    """It holds nobody up, and is ended with its process."""
    before = slow.processes()
    with connected(slow) as client:
        client.sendall(request(b"{}", "spin"))
        assert longest_wait(slow, lasting(2)) < WAIT_MOST
        assert client.recv(1000) == b""
    replaced(slow, before)


def test_many_requests_that_do_not_end(slow: Interface) -> None:
    """They take some of the threads alone, however many they are, if they are large; each is answered in time."""
    for _, reply in replies_to(slow, "wait", b" " * 100_000, 40):
        assert reply.status == 503 and "10 seconds" in reply.json["error"]
    # The processes are ended and replaced one after another.
    time.sleep(8)


def test_a_client_that_leaves(slow: Interface) -> None:
    """It holds nobody up, and nothing is said of it."""
    said = slow.said()
    for _ in range(20):
        with connected(slow) as client:
            client.sendall(request(LAND))
    assert longest_wait(slow, lasting(1)) < WAIT_MOST
    assert slow.said() == said


def test_a_process_that_dies(slow: Interface) -> None:
    """Another one begins, and those that are left answer meanwhile."""
    before = slow.processes()
    with pytest.raises(OSError):
        slow.post("die", b"{}")
    assert slow.post("land", LAND).json["acres"]["exact"] == "160.00"
    replaced(slow, before)
    assert slow.said()[-1] == "a process of the server has ended (status -11); another one begins"


def test_nothing_is_left_of_a_server_that_is_killed(tmp_path: Path) -> None:
    program = [str(Path(__file__).with_name("slow.py"))]
    with started(tmp_path / "said", program=program) as server:
        with connected(server) as client:
            client.sendall(request(b"{}", "wait"))
            assert server.post("land", LAND).status == 200
            complete(server)
            workers = server.processes()[1:]
            os.kill(server.process, signal.SIGKILL)
            for _ in range(100):
                left = [each for each in workers if Path(f"/proc/{each}/exe").exists()]
                if not left:
                    return
                time.sleep(0.1)
            assert not left


def interruptible(command: List[str], file: IO[bytes], environment: Dict[str, str]) -> "subprocess.Popen[bytes]":
    """Start a server in a session of its own, which heeds Ctrl-C even if the tests run in the background, where it is
    ignored."""
    heed = functools.partial(signal.signal, signal.SIGINT, signal.SIG_DFL)
    return subprocess.Popen(command, stderr=file, env=environment, start_new_session=True, preexec_fn=heed)


@pytest.mark.parametrize("delay", [0, 0.005, 0.01, 0.02, 0.04, 0.08])
def test_ctrl_c_at_once(tmp_path: Path, delay: float) -> None:
    """It ends the server with status 0, and without a word, also while its processes begin."""
    command = [sys.executable, "-m", "township", "serve", "--port", "0"]
    environment = {**os.environ, "PYTHONPATH": os.environ.get("PYTHONPATH", str(TOP / "bindings" / "python" / "src"))}
    said = tmp_path / "said"
    with said.open("wb") as file, interruptible(command, file, environment) as run:
        try:
            port_in(said)
            time.sleep(delay)
            os.killpg(run.pid, signal.SIGINT)
            assert run.wait(timeout=20) == 0
        finally:
            run.kill()
    assert len(said.read_text().splitlines()) == 1


def test_ctrl_c(tmp_path: Path) -> None:
    """It ends the server with status 0, even while something is computed."""
    command = [sys.executable, str(Path(__file__).with_name("slow.py")), "serve", "--port", "0"]
    environment = {**os.environ, "PYTHONPATH": os.environ.get("PYTHONPATH", str(TOP / "bindings" / "python" / "src"))}
    said = tmp_path / "said"
    with said.open("wb") as file, interruptible(command, file, environment) as run:
        try:
            server = Interface(port_in(said), run.pid, said)
            with connected(server) as client:
                client.sendall(request(b"{}", "spin"))
                time.sleep(1)
                # Ctrl-C reaches all processes of a terminal.
                os.killpg(run.pid, signal.SIGINT)
                assert run.wait(timeout=10) == 0
        finally:
            run.kill()
    assert len(said.read_text().splitlines()) == 1
