"""The configurations in docs/SERVING.md: systemd finds no fault in its unit, and nginx serves the page by TLS."""
from __future__ import annotations

import http.client
import json
import os
import re
import shutil
import socket
import ssl
import subprocess
import sys
import time
from pathlib import Path
from typing import Iterator

import pytest

from asking import NOMINAL, Interface

TOP = Path(__file__).resolve().parents[2]
SERVING = (TOP / "docs" / "SERVING.md").read_text()

#: The name that the document uses.
HOST = "plats.example.com"


def block(first: str) -> str:
    """The indented block of the document whose first line begins so."""
    lines = SERVING.splitlines()
    begin = next(at for at, line in enumerate(lines) if line.startswith(f"    {first}"))
    end = next(at for at in range(begin, len(lines)) if lines[at] and not lines[at].startswith("    "))
    return "\n".join(line[4:] for line in lines[begin:end]).rstrip() + "\n"


#: The unit in the Debian package.
UNIT = TOP / "packaging" / "debian" / "python3-township.township.service"


def test_the_unit_of_the_package() -> None:
    assert UNIT.read_text() == block("[Unit]")


@pytest.mark.skipif(shutil.which("systemd-analyze") is None, reason="systemd is not installed")
def test_the_unit(tmp_path: Path) -> None:
    unit = tmp_path / "township.service"
    unit.write_text(block("[Unit]"))
    run = subprocess.run(["systemd-analyze", "verify", str(unit)], capture_output=True, text=True)
    assert (run.returncode, run.stdout, run.stderr) == (0, "", "")
    run = subprocess.run(["systemd-analyze", "security", "--offline=true", str(unit)], capture_output=True, text=True)
    # From 0 for a service that can do nothing to 10 for one that is not confined.
    exposure = float(run.stdout.rpartition("service: ")[2].split()[0])
    assert exposure < 2.0


def test_the_command_of_the_unit() -> None:
    [line] = [line for line in block("[Unit]").splitlines() if line.startswith("ExecStart=")]
    words = line.partition("=")[2].split()
    assert words[:4] == ["/usr/bin/python3", "-m", "township", "serve"]
    assert words[4:] == ["$TOWNSHIP_SERVE"] and "EnvironmentFile=-/etc/default/township\n" in block("[Unit]")
    # systemd divides the value at spaces.
    value = block("TOWNSHIP_SERVE=").partition("=")[2].strip().strip('"')
    assert value == f"--name {HOST}"
    words[4:] = value.split()
    run = subprocess.run([sys.executable, *words[1:], "--port", "no"], capture_output=True, text=True)
    assert run.returncode == 2 and "`no` is not a port" in run.stderr


@pytest.fixture
def nginx(tmp_path: Path) -> Iterator[int]:
    """nginx with the document's configuration, on a free port of this computer, with the page after it."""
    if shutil.which("nginx") is None or shutil.which("openssl") is None:
        pytest.skip("nginx or openssl is not installed")
    subprocess.run(
        ["openssl", "req", "-x509", "-newkey", "rsa:2048", "-nodes", "-days", "2", "-subj", f"/CN={HOST}",
         "-addext", f"subjectAltName=DNS:{HOST}", "-keyout", "plats.key", "-out", "plats.pem"],
        cwd=tmp_path, check=True, capture_output=True,
    )
    port, behind = free_port(), free_port()
    place, passed = "location /plats/", "proxy_pass http://127.0.0.1:8036/;"
    assert f"`{place}` with `{passed}`" in " ".join(SERVING.split())
    # The page at the root, as the document shows it, and under a path, as it says.
    under_a_path = f"    {place} {{\n        {passed}\n        proxy_set_header Host $host;\n    }}\n}}\n"
    site = block("server {").rstrip().removesuffix("}") + under_a_path
    for old, new in (
        ("listen 443", f"listen 127.0.0.1:{port}"),
        ("127.0.0.1:8036", f"127.0.0.1:{behind}"),
        ("/etc/ssl/certs/", f"{tmp_path}/"),
        ("/etc/ssl/private/", f"{tmp_path}/"),
    ):
        assert old in site
        site = site.replace(old, new)
    folders = "".join(f"{each}_temp_path {tmp_path}/{each};\n" for each in ("client_body", "proxy", "fastcgi", "uwsgi", "scgi"))
    conf = tmp_path / "nginx.conf"
    conf.write_text(f"daemon off;\npid {tmp_path}/pid;\nerror_log stderr;\nevents {{}}\nhttp {{\n{folders}{site}}}\n")
    page = [sys.executable, "-m", "township", "serve", "--port", str(behind), "--name", HOST]
    with subprocess.Popen(page, stderr=subprocess.DEVNULL) as first:
        with subprocess.Popen(["nginx", "-e", "stderr", "-c", str(conf)], stderr=subprocess.DEVNULL) as second:
            try:
                for each in (behind, port):
                    wait_for(each)
                yield port
            finally:
                second.terminate()
                first.terminate()


def free_port() -> int:
    with socket.socket() as probe:
        probe.bind(("127.0.0.1", 0))
        return int(probe.getsockname()[1])


def wait_for(port: int) -> None:
    for _ in range(200):
        try:
            socket.create_connection(("127.0.0.1", port)).close()
            return
        except OSError:
            time.sleep(0.05)
    raise AssertionError(f"nothing listens on {port}")


def test_nginx(nginx: int, tmp_path: Path) -> None:
    trusted = ssl.create_default_context(cafile=str(tmp_path / "plats.pem"))
    body = json.dumps({**NOMINAL, "description": "sec. 14, NE1/4."}).encode()
    headers = {"Content-Type": "application/json", "Origin": f"https://{HOST}"}

    def answer(method: str, path: str, body: "bytes | None" = None) -> http.client.HTTPResponse:
        connection = http.client.HTTPSConnection(HOST, nginx, context=trusted, timeout=20)
        # The name leads to this computer.
        connection.sock = trusted.wrap_socket(socket.create_connection(("127.0.0.1", nginx)), server_hostname=HOST)
        connection.request(method, path, body, headers)
        return connection.getresponse()

    page = answer("GET", "/")
    assert page.status == 200 and b"<h1>Township plat" in page.read()
    files = re.findall(r'(?:href|src)="(static/[a-z.]+)"', answer("GET", "/plats/").read().decode())
    assert [answer("GET", f"/plats/{name}").status for name in files] == [200, 200, 200]
    assert json.loads(answer("POST", "/plats/api/v1/land", body).read())["acres"]["exact"] == "160.00"
    assert page.headers["Strict-Transport-Security"] == "max-age=31536000"
    assert "frame-ancestors 'none'" in page.headers["Content-Security-Policy"]
    assert json.loads(answer("POST", "/api/v1/land", body).read())["acres"]["exact"] == "160.00"


def test_names(server: Interface) -> None:
    """Without --name, the server does not answer under the document's name."""
    assert server.send("GET", "/", Host=HOST).status == 421


def serve(*words: str, path: str = "") -> "subprocess.CompletedProcess[str]":
    """The server, if it ends by itself."""
    environment = {**os.environ, "PYTHONPATH": path + os.environ.get("PYTHONPATH", str(TOP / "bindings" / "python" / "src"))}
    command = [sys.executable, "-m", "township", "serve", *words]
    return subprocess.run(command, capture_output=True, text=True, timeout=60, env=environment)


def test_without_flask(tmp_path: Path) -> None:
    (tmp_path / "flask.py").write_text("raise ModuleNotFoundError(\"No module named 'flask'\", name='flask')\n")
    run = serve(path=f"{tmp_path}:")
    assert (run.returncode, run.stdout) == (3, "")
    assert run.stderr == "township: the page needs flask: install python3-flask and python3-waitress\n"


def test_addresses() -> None:
    """An address that stands for all of this computer is never shown. test_names.py asks at those that are."""
    from township._web.guard import in_url
    from township._web.reached import reached_at

    shown = {"127.0.0.1": "127.0.0.1", "::1": "[::1]", "192.0.2.7": "192.0.2.7", "fe80::1%eth0": "[fe80::1]"}
    assert {host: in_url(reached_at(host)) for host in shown} == shown
    assert reached_at("0.0.0.0") not in ("", "0.0.0.0") and reached_at("::") not in ("", "::")


class Probe:
    """A socket of a computer that has one address, or is connected to nothing."""

    def __init__(self, address: str) -> None:
        self.address = address

    def __enter__(self) -> "Probe":
        return self

    def __exit__(self, *_: object) -> None:
        pass

    def connect(self, _: object) -> None:
        if not self.address:
            raise OSError

    def getsockname(self) -> "tuple[str, int]":
        return self.address, 1


@pytest.mark.parametrize(
    "listening, own, shown",
    [
        ("0.0.0.0", "192.168.1.5", "192.168.1.5"),
        ("::", "2001:db8::5", "2001:db8::5"),
        ("0.0.0.0", "", "127.0.0.1"),
        ("::", "", "::1"),
        ("127.0.0.2", "192.168.1.5", "127.0.0.2"),
    ],
)
def test_the_address_for_others(monkeypatch: pytest.MonkeyPatch, listening: str, own: str, shown: str) -> None:
    """It is the one by which others reach this computer, if it is connected to any."""
    from township._web import reached

    monkeypatch.setattr(reached.socket, "socket", lambda *_: Probe(own))
    assert reached.reached_at(listening) == shown


def test_a_port_in_use(server: Interface) -> None:
    run = serve("--port", str(server.port))
    assert run.returncode == 3
    assert run.stderr.startswith(f"township: cannot listen on 127.0.0.1, port {server.port}: ")
