"""`python -m township serve`: the page, and the JSON interface."""
from __future__ import annotations

import argparse
import sys
import webbrowser
from typing import Any, Sequence

from ._batch import Status, Stopped
from ._web.limits import PORT

_USAGE = "python -m township serve [options]"

_SERVE = """\
Serves the page on which plats are drawn, and the JSON interface (docs/HTTP.md). By default, only this
computer can open the page. Needs Flask and waitress: in Debian, python3-flask and python3-waitress.
"""

_STATUS = """\
exit status:
  0    it was stopped by Ctrl-C
  2    the command line is not valid
  3    it cannot listen, or Flask or waitress is missing; standard error says why
"""

#: The largest number of a port.
_PORTS = 65_535


def add_serve(commands: Any) -> None:
    """Add the command to those of the command line."""
    serve = commands.add_parser(
        "serve",
        help="serve the page on which plats are drawn",
        usage=_USAGE,
        description=_SERVE,
        epilog=_STATUS,
        formatter_class=argparse.RawDescriptionHelpFormatter,
    )
    serve.add_argument(
        "--host", metavar="ADDRESS", default="127.0.0.1", help="the address to listen on (default: 127.0.0.1)"
    )
    serve.add_argument(
        "--port", metavar="N", type=_port, default=PORT, help=f"the port to listen on (default: {PORT})"
    )
    serve.add_argument(
        "--name",
        metavar="HOST",
        action="append",
        default=[],
        help="a name under which browsers reach the page, besides localhost; can be repeated",
    )
    serve.add_argument("--open", action="store_true", help="open the page in a browser")
    serve.set_defaults(run=run_serve)


def run_serve(asked: argparse.Namespace) -> Status:
    """Serve until Ctrl-C. Raise `Stopped` if that is not possible."""
    try:
        from ._web.app import create_app
        from ._web.guard import LOCAL_HOSTS, in_url
        from ._web.reached import is_address, reached_at
        from ._web.serving import Server
    except ModuleNotFoundError as error:
        remedy = "install python3-flask and python3-waitress"
        raise Stopped(f"township: the page needs {error.name}: {remedy}") from error
    names = {*LOCAL_HOSTS, *map(str.lower, asked.name)}
    if not is_address(asked.host):
        names.add(asked.host.lower())
    app = create_app(names)
    try:
        server = Server(app, asked.host, asked.port)
    except (OSError, ValueError) as error:
        raise Stopped(f"township: cannot listen on {asked.host}, port {asked.port}: {error}") from error
    address = f"http://{in_url(reached_at(server.address))}:{server.port}/"
    print(f"township: {address} (Ctrl-C stops it)", file=sys.stderr)
    if names != LOCAL_HOSTS or in_url(server.address) not in LOCAL_HOSTS:
        print(f"township: {_said(sorted(names))}", file=sys.stderr)
    sys.stderr.flush()
    if asked.open:
        webbrowser.open(address)
    server.run()
    return Status.ACCEPTED


def _said(names: Sequence[str]) -> str:
    """Return what is said of the names under which the server answers."""
    return f"it answers as {', '.join(names)}, and by its own address (--name adds a name)"


def _port(word: str) -> int:
    """Return the number of a port; 0 means any that is free."""
    if not (word.isdecimal() and int(word) <= _PORTS):
        raise argparse.ArgumentTypeError(f"`{word}` is not a port, 0 to {_PORTS}")
    return int(word)
