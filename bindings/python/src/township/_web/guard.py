"""What every request must be, and the headers that every response has."""
from __future__ import annotations

from typing import Collection, Dict, Optional
from urllib.parse import urlsplit

from flask import Flask, Response, request

from .replies import failed

#: The names under which the server answers if it is not given others.
LOCAL_HOSTS = frozenset({"127.0.0.1", "localhost", "[::1]"})

_POLICY = "; ".join(
    [
        "default-src 'none'",
        "script-src 'self'",
        "style-src 'self'",
        "img-src 'self' data:",
        "connect-src 'self'",
        "base-uri 'none'",
        "form-action 'none'",
        "frame-ancestors 'none'",
    ]
)

#: The headers of every response.
HEADERS: Dict[str, str] = {
    "Content-Security-Policy": _POLICY,
    "X-Content-Type-Options": "nosniff",
    "X-Frame-Options": "DENY",
    "Referrer-Policy": "no-referrer",
    "Cross-Origin-Opener-Policy": "same-origin",
    "Cross-Origin-Resource-Policy": "same-origin",
    "Permissions-Policy": "camera=(), geolocation=(), microphone=()",
}


def guard(app: Flask, hosts: Collection[str]) -> None:
    """Refuse requests for other hosts or from pages of other hosts, and set the headers of each response.

    Besides these hosts, the address by which the client has reached this computer is accepted.
    """

    def check() -> Optional[Response]:
        if not request.method:
            return failed(400, "the request has no method")
        # A page of another host can have its own name lead to this computer, but never an address.
        names = {*hosts, in_url(request.environ.get("SERVER_NAME", ""))}
        if _name_in(request.headers.get("Host", "")) not in names:
            return failed(421, "this server does not answer under that name; its option --name adds one")
        origin = request.headers.get("Origin")
        if origin is not None and _host_of(origin) not in names:
            return failed(403, "pages of other hosts may not use this server")
        if request.method == "POST" and request.mimetype != "application/json":
            return failed(415, "send JSON, with the content type application/json")
        return None

    app.before_request(check)
    app.after_request(protect)


def protect(response: Response) -> Response:
    """Set the headers of a response that every one has."""
    for name, value in HEADERS.items():
        response.headers[name] = value
    response.headers.setdefault("Cache-Control", "no-store")
    return response


def in_url(address: str) -> str:
    """Return an address of a computer as URLs have it."""
    return f"[{address.partition('%')[0]}]" if ":" in address else address


def _host_of(origin: str) -> str:
    """Return the name of the host in an origin, or nothing if it is not valid."""
    try:
        return _name_in(urlsplit(origin).netloc)
    except ValueError:
        return ""


def _name_in(host: str) -> str:
    """Return the name in a host, without the port."""
    name, colon, port = host.rpartition(":")
    return (name if colon and (port.isdecimal() or not port) else host).lower()
