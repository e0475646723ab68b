"""The application: its routes, and what becomes of errors."""
from __future__ import annotations

import logging
from typing import Callable, Collection, Dict

from flask import Flask, Response, render_template, request
from werkzeug.exceptions import HTTPException

from .._version import __version__
from .answers import batch_answer, compare_answer, land_answer, plat_answer
from .assets import TEMPLATES, Asset, asset_of, interface, static_assets
from .files import file_answer
from .given import Invalid, RefusedBasis
from .guard import LOCAL_HOSTS, guard
from .limits import BODY_MOST
from .packing import pack, takes_packed
from .replies import failed, replied
from .refusals import Json, refused_json
from .sectionlines import section_lines
from .suggesting import suggest_answer
from .tracts import report_answer

#: The answers, by the last part of their route.
ANSWERS: Dict[str, Callable[[bytes], Json]] = {
    "plat": plat_answer,
    "land": land_answer,
    "compare": compare_answer,
    "suggest": suggest_answer,
    "report": report_answer,
    "batch": batch_answer,
    "file": file_answer,
}

#: Where the routes of the JSON interface begin.
PREFIX = "/api/v1/"

_log = logging.getLogger("township")


def create_app(hosts: Collection[str] = LOCAL_HOSTS) -> Flask:
    """Return the application, which answers under these names of hosts alone."""
    app = Flask("township", static_folder=None, template_folder=str(TEMPLATES))
    app.config["MAX_CONTENT_LENGTH"] = BODY_MOST
    guard(app, hosts)
    _handle_errors(app)
    with app.app_context(), app.test_request_context():
        shown = {"version": __version__, "lines": section_lines()}
        page = asset_of(render_template("page.html", **shown).encode("utf-8"), ".html")
    _serve(app, "/", page)
    _serve(app, f"{PREFIX}openapi.json", interface())
    assets = static_assets()
    # Browsers ask for this one, whatever icon a page names.
    _serve(app, "/favicon.ico", assets["icon.svg"])
    for name, asset in assets.items():
        _serve(app, f"/static/{name}", asset)
    for name, answer in ANSWERS.items():
        _answer(app, name, answer)
    return app


def _serve(app: Flask, path: str, asset: Asset) -> None:
    """Add a route to a file of the page."""

    def serve() -> Response:
        is_packed = takes_packed()
        response = Response(asset.packed if is_packed else asset.data, content_type=asset.type)
        response.set_etag(f"{asset.tag}-gzip" if is_packed else asset.tag)
        if is_packed:
            response.headers["Content-Encoding"] = "gzip"
        response.headers["Vary"] = "Accept-Encoding"
        response.headers["Cache-Control"] = "no-cache"
        response.make_conditional(request)
        return response

    app.add_url_rule(path, path, serve, methods=["GET"], provide_automatic_options=False)


def _answer(app: Flask, name: str, answer: Callable[[bytes], Json]) -> None:
    """Add a route of the JSON interface. A refusal is an answer; its status is 200."""

    def post() -> Response:
        try:
            return pack(replied(answer(request.get_data(cache=False))))
        except RefusedBasis as error:
            return replied({"refused": refused_json(error.refused, error.of, error.text)})
        except Invalid as invalid:
            return failed(400, str(invalid))

    app.add_url_rule(PREFIX + name, name, post, methods=["POST"], provide_automatic_options=False)


def _handle_errors(app: Flask) -> None:
    """Answer every error in JSON. The log names only the kind of an error, since a message can contain input."""

    def known(error: HTTPException) -> Response:
        response = failed(error.code or 500, error.name)
        if error.code == 405:
            response.headers["Allow"] = ", ".join(getattr(error, "valid_methods", None) or [])
        return response

    def memory(_: MemoryError) -> Response:
        return failed(503, "out of memory")

    def unknown(error: Exception) -> Response:
        _log.error("no answer to %s: %s", request.path, type(error).__name__)
        return failed(500, "Internal Server Error")

    app.register_error_handler(HTTPException, known)
    app.register_error_handler(MemoryError, memory)
    app.register_error_handler(Exception, unknown)
