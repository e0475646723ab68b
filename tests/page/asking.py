"""Requests to the server that is tested."""
from __future__ import annotations

import http.client
import json
import os
from pathlib import Path
from typing import Any, Dict, List, NamedTuple, Optional

SAMPLES = Path(__file__).resolve().parents[2] / "samples"
#: The field notes of a township with uneven lines.
SAMPLE = SAMPLES / "b1.csv"
NOTES = SAMPLE.read_text()

#: A township in which all lines are regular.
NOMINAL = {"township": "T. 2 N., R. 3 W."}


class Reply(NamedTuple):
    """A response."""

    status: int
    headers: Dict[str, str]
    body: bytes

    @property
    def json(self) -> Any:
        return json.loads(self.body)


class Interface:
    """The JSON interface of a server on this computer."""

    def __init__(self, port: int, process: int, said: Path) -> None:
        self.port = port
        self.process = process
        self._said = said
        self.address = f"http://127.0.0.1:{port}/"

    def send(self, method: str, path: str, body: Optional[bytes] = None, **headers: str) -> Reply:
        """Send one request, whose headers are named with underscores for hyphens."""
        connection = http.client.HTTPConnection("127.0.0.1", self.port, timeout=120)
        try:
            named = {name.replace("_", "-"): value for name, value in headers.items()}
            connection.request(method, path, body, named)
            response = connection.getresponse()
            received = {name.lower(): value for name, value in response.getheaders()}
            return Reply(response.status, received, response.read())
        finally:
            connection.close()

    def post(self, kind: str, data: bytes, **headers: str) -> Reply:
        """Send the bytes of a request to the interface."""
        headers.setdefault("Content_Type", "application/json")
        return self.send("POST", f"/api/v1/{kind}", data, **headers)

    def ask(self, kind: str, **fields: Any) -> Any:
        """Return the answer to a request, which must have one."""
        reply = self.post(kind, json.dumps(fields).encode())
        assert reply.status == 200, reply.body
        return reply.json

    def processes(self) -> List[int]:
        """Return the processes that serve: the one that was started, and its workers."""
        found = [self.process]
        for each in Path("/proc").iterdir():
            if each.name.isdecimal():
                fields = _fields_of(int(each.name))
                # The state, and the process that started it. One that has ended has no memory.
                if fields and int(fields[1]) == self.process and fields[0] != "Z":
                    found.append(int(each.name))
        return found

    def memory(self) -> int:
        """Return how many bytes of memory the server has in use, with its workers: what they share counts once."""
        return sum(map(_memory_of, self.processes()))

    def in_files(self) -> int:
        """Return how many bytes the server keeps in temporary files."""
        return sum(map(_in_files_of, self.processes()))

    def seconds_worked(self) -> float:
        """Return how many seconds processors have worked for the server, whatever else the machine does."""
        ticks = 0
        for process in self.processes():
            fields = _fields_of(process)
            # Its own, and those of the workers that have ended.
            ticks += sum(map(int, fields[11:15]))
        return ticks / os.sysconf("SC_CLK_TCK")

    def said(self) -> List[str]:
        """Return the lines that the server has printed."""
        return self._said.read_text().splitlines()


def _fields_of(process: int) -> List[str]:
    """Return what the system says of a process, from its state on: nothing if it is gone."""
    try:
        return Path(f"/proc/{process}/stat").read_text().rpartition(")")[2].split()
    except OSError:
        return []


def _memory_of(process: int) -> int:
    try:
        lines = Path(f"/proc/{process}/smaps_rollup").read_text().splitlines()
    except OSError:
        return 0
    return sum(1024 * int(line.split()[1]) for line in lines if line.startswith("Pss:"))


def _in_files_of(process: int) -> int:
    size = 0
    for each in Path(f"/proc/{process}/fd").iterdir():
        try:
            # A temporary file has no name any more.
            if os.readlink(each).endswith(" (deleted)"):
                size += each.stat().st_size
        except OSError:
            continue
    return size
