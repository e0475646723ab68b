"""The addresses and names under which the server answers."""
from __future__ import annotations

import contextlib
import http.client
import os
import re
import subprocess
import sys
import time
from pathlib import Path
from typing import Iterator, List

import pytest

from asking import Interface
from conftest import TOP


@contextlib.contextmanager
def serving(said: Path, *words: str) -> Iterator[List[str]]:
    """What a server prints that is started with these words, while it runs."""
    command = [sys.executable, "-m", "township", "serve", "--port", "0", *words]
    environment = {**os.environ, "PYTHONPATH": os.environ.get("PYTHONPATH", str(TOP / "bindings" / "python" / "src"))}
    with said.open("wb") as file, subprocess.Popen(command, stderr=file, env=environment) as run:
        try:
            for _ in range(600):
                if run.poll() is not None or said.read_text().count("\n") >= 2:
                    break
                time.sleep(0.1)
            yield said.read_text().splitlines()
        finally:
            run.terminate()


def asked(address: str, name: str = "", **headers: str) -> int:
    """The status of the page at an address, which is asked for under another name if one is given."""
    host, _, port = address.partition("//")[2].rstrip("/").rpartition(":")
    connection = http.client.HTTPConnection(host.strip("[]"), int(port), timeout=30)
    with contextlib.closing(connection):
        connection.request("GET", "/", headers={"Host": name or f"{host}:{port}", **headers})
        return connection.getresponse().status


def addresses() -> List[str]:
    """The addresses of this computer, as URLs have them."""
    found = subprocess.run(["hostname", "-I"], capture_output=True, text=True).stdout.split()
    return [f"[{each}]" if ":" in each else each for each in found if not each.startswith("fe80")]


@pytest.mark.parametrize("host", ["0.0.0.0", "::", "127.0.0.2", "::1", "localhost", *addresses()])
def test_the_address_answers(tmp_path: Path, host: str) -> None:
    """What `--host` prints answers, and so do the names that it prints, but no others."""
    if ":" in host and not Path("/proc/net/if_inet6").read_text():
        pytest.skip("this computer has no IPv6")
    with serving(tmp_path / "said", "--host", host.strip("[]"), "--name", "plats.example.com") as said:
        [first, second] = said
        address = first.removeprefix("township: ").removesuffix(" (Ctrl-C stops it)")
        assert re.fullmatch(r"http://[^/]+:[0-9]+/", address), first
        assert "0.0.0.0" not in address and "[::]" not in address
        assert asked(address) == 200
        assert asked(address, Origin=address.rstrip("/")) == 200
        names, by, _ = second.removeprefix("township: it answers as ").partition(", and by its own address (--name ")
        listed = names.split(", ")
        assert by
        assert {"localhost", "plats.example.com"} <= set(listed)
        for name in listed:
            assert asked(address, name) == 200, name
        for name in ("example.com", "plats.example.com.evil.test", "192.0.2.1", ""):
            assert asked(address, name or "0") == 421, name
        assert asked(address, Origin="http://192.0.2.1") == 403


def test_the_document_shows_what_is_printed(tmp_path: Path) -> None:
    document = (TOP / "docs" / "SERVING.md").read_text().splitlines()
    with serving(tmp_path / "said", "--host", "127.0.0.2", "--name", "plats.example.com") as said:
        assert f"    {said[1]}" in document
        assert "    " + re.sub("127.0.0.2:[0-9]+", "192.168.1.5:8036", said[0]) in document


def test_other_names_are_explained(office: Interface) -> None:
    """The error says what to do."""
    reply = office.send("GET", "/", Host="plats.example.com")
    assert reply.status == 421 and "--name" in reply.json["error"]
