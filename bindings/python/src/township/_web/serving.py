"""The server: waitress, in several processes that accept connections from one socket.

waitress receives and sends without a thread for each connection, and keeps what is long in temporary files. Here are
added the times within which a request must arrive and be answered, and an answer be read; and its errors are JSON.
"""
from __future__ import annotations

import contextlib
import ctypes
import logging
import math
import multiprocessing
import os
import resource
import signal
import socket
import threading
import time
from concurrent.futures import ThreadPoolExecutor, TimeoutError
from multiprocessing.connection import wait
from typing import Any, Dict, Iterable, Iterator, List

from flask import Flask, Response
from waitress.adjustments import Adjustments
from waitress.channel import HTTPChannel
from waitress.parser import HTTPRequestParser
from waitress.server import TcpWSGIServer
from waitress.task import ErrorTask, WSGITask
from waitress.utilities import BadRequest

from . import limits
from .guard import protect
from .replies import failed

#: The connections that the system keeps until they are accepted.
_BACKLOG = 1024

#: waitress's own sockets, which its limit on connections includes: one listens, and one wakes it.
_OWN_SOCKETS = 2

#: More than the answers to all requests that arrive at once: a thread never waits for a client.
_NEVER_WAITS = 1 << 40

#: The seconds that a process leaves a connection to others for each that it has itself, up to so many.
_LEAD, _LEADS_MOST = 0.0005, 4

#: Of prctl: the signal that a process gets when the one that made it ends.
_PDEATHSIG = 1

#: Of mallopt: the size from which memory is asked of the system, and given back to it.
_M_MMAP_THRESHOLD = -3

#: Where the environment of a request has the time until which it must be answered.
_UNTIL = "township.until"

_LATE = f"no answer within {limits.SECONDS_MOST} seconds: ask for less at once, or again when the server has less to do"

_log = logging.getLogger("township")


class Late(BadRequest):  # type: ignore[misc]
    code = 408
    reason = f"the request did not arrive within {limits.SECONDS_MOST} seconds"


class Request(HTTPRequestParser):  # type: ignore[misc]
    """A request, which knows since when it has been arriving."""

    def __init__(self, adj: Adjustments) -> None:
        super().__init__(adj)
        self.since = time.time()


class Answering(WSGITask):  # type: ignore[misc]
    def get_environment(self) -> Dict[str, Any]:
        """Return the environment of the request, with the address that was reached, and the time that is left."""
        environment: Dict[str, Any] = super().get_environment()
        environment["SERVER_NAME"] = self.channel.local
        environment[_UNTIL] = self.request.since + limits.SECONDS_MOST
        return environment


class Failing(ErrorTask):  # type: ignore[misc]
    def execute(self) -> None:
        """Answer with an error of waitress: in JSON, and with the headers of all answers."""
        response = protect(failed(self.request.error.code, self.request.error.reason))
        self.status = response.status
        self.response_headers += [*response.headers, ("Connection", "close")]
        self.close_on_finish = True
        self.write(response.get_data())


class Channel(HTTPChannel):  # type: ignore[misc]
    """A connection, which knows since when its last answer has been computed, and has been complete."""

    parser_class, task_class, error_task_class = Request, Answering, Failing
    request: Any
    computed = answered = math.inf

    def __init__(self, server: Any, sock: socket.socket, *rest: Any, **named: Any) -> None:
        self.local = str(sock.getsockname()[0])
        super().__init__(server, sock, *rest, **named)

    def service(self) -> None:
        self.computed = time.time()
        super().service()
        self.answered = time.time()

    def look(self, now: float) -> int:
        """Close what takes too long; end the process if a computation never ends. Return how much is held."""
        with self.requests_lock:
            request = self.request
            if request is not None and not self.requests and request.since + limits.SECONDS_MOST < now:
                request.error, self.request, self.last_activity = Late(""), None, now
                self.requests.append(request)
                self.server.add_task(self)
            if self.requests and self.computed + limits.SECONDS_MOST + limits.ENDLESS < now:
                os._exit(1)
        unread: int = self.total_outbufs_len
        if unread and (self.last_activity + limits.IDLE_MOST < now or self.answered + limits.READING_MOST < now):
            self.will_close = True
        return unread if request is None else unread + int(request.body_bytes_received)


def _latest(channel: Channel) -> float:
    return -float(channel.last_activity)


class Worker(TcpWSGIServer):  # type: ignore[misc]
    """waitress, in one of the processes."""

    channel_class = Channel

    def handle_accept(self) -> None:
        """Accept a connection, unless another process does that has fewer."""
        time.sleep(_LEAD * min(len(self.active_channels), _LEADS_MOST))
        super().handle_accept()

    def maintenance(self, now: float) -> None:
        """Close the connections that take too long, and those for which too much is held, the latest ones last."""
        held = 0
        for channel in sorted(self.active_channels.values(), key=_latest):
            size = channel.look(now)
            held += size
            if held > limits.HELD_MOST and size > limits.HELD_USUAL:
                channel.will_close = True
        super().maintenance(now)


class Timed:
    """An application that answers large requests in time, and leaves room for small ones beside them."""

    def __init__(self, app: Flask) -> None:
        self._app = app
        self._large = ThreadPoolExecutor(limits.LARGE_THREADS)

    def __call__(self, environment: Dict[str, Any], start_response: Any) -> Iterable[bytes]:
        if int(environment.get("CONTENT_LENGTH") or 0) <= limits.SMALL_MOST:
            answer: Iterable[bytes] = self._app(environment, start_response)
            return answer
        asked = self._large.submit(Response.from_app, self._app, environment, True)
        try:
            response = asked.result(environment[_UNTIL] - time.time())
        except TimeoutError:
            response = protect(failed(503, _LATE))
            if not asked.cancel():
                end = threading.Timer(limits.ENDLESS, os._exit, [1])
                end.start()
                asked.add_done_callback(lambda _: end.cancel())
        return response(environment, start_response)


@contextlib.contextmanager
def _uninterrupted() -> Iterator[None]:
    """Let Ctrl-C wait. While Python forks, it would ignore it, or a process that has just begun would end by it."""
    signal.pthread_sigmask(signal.SIG_BLOCK, {signal.SIGINT})
    try:
        yield
    finally:
        signal.pthread_sigmask(signal.SIG_UNBLOCK, {signal.SIGINT})


class Server:
    """The processes, and the socket on which they listen."""

    def __init__(self, app: Flask, host: str, port: int) -> None:
        """Listen. Raise `OSError` if that is not possible."""
        found = socket.getaddrinfo(host, port, type=socket.SOCK_STREAM, flags=socket.AI_PASSIVE)
        family, _, _, _, address = found[0]
        self._app = app
        self._listening = socket.create_server(address, family=family, backlog=_BACKLOG)
        # What the system keeps of an answer that is not read, for each connection.
        self._listening.setsockopt(socket.SOL_SOCKET, socket.SO_SNDBUF, limits.SYSTEM_MOST)
        #: The address and the port on which it listens.
        self.address, self.port = (str(self._listening.getsockname()[0]), int(self._listening.getsockname()[1]))

    def run(self) -> None:
        """Serve until Ctrl-C. Begin another process for each that ends; they end with this one."""
        fork, parent = multiprocessing.get_context("fork"), os.getpid()
        workers: List[Any] = []
        try:
            while True:
                with _uninterrupted():
                    while len(workers) < limits.PROCESSES:
                        workers.append(fork.Process(target=self._work, args=(parent,), daemon=True))
                        workers[-1].start()
                wait([each.sentinel for each in workers])
                for ended in [each for each in workers if not each.is_alive()]:
                    workers.remove(ended)
                    _log.error("a process of the server has ended (status %s); another one begins", ended.exitcode)
                # No haste, if it ends each time.
                time.sleep(1)
        except KeyboardInterrupt:
            pass

    def _work(self, parent: int) -> None:
        """Serve in this process."""
        # Ctrl-C is for the parent.
        signal.signal(signal.SIGINT, signal.SIG_IGN)
        system = ctypes.CDLL(None)
        system.prctl(_PDEATHSIG, signal.SIGKILL, 0, 0, 0)
        if os.getppid() != parent:
            return
        with contextlib.suppress(AttributeError):
            system.mallopt(_M_MMAP_THRESHOLD, limits.GIVEN_BACK)
        most = resource.getrlimit(resource.RLIMIT_NOFILE)[1]
        resource.setrlimit(resource.RLIMIT_NOFILE, (most, most))
        # It warns of each request that waits.
        logging.getLogger("waitress").setLevel(logging.ERROR)
        adjustments = Adjustments(
            sockets=[self._listening],
            threads=limits.THREADS,
            backlog=_BACKLOG,
            connection_limit=limits.CONNECTIONS_MOST // limits.PROCESSES + _OWN_SOCKETS,
            channel_timeout=limits.IDLE_MOST,
            cleanup_interval=1,
            # waitress refuses a body of this size.
            max_request_body_size=limits.BODY_MOST + 1,
            max_request_header_size=limits.HEAD_MOST,
            recv_bytes=2 * limits.HEAD_MOST,
            inbuf_overflow=limits.IN_MEMORY,
            outbuf_overflow=limits.IN_MEMORY,
            outbuf_high_watermark=_NEVER_WAITS,
            clear_untrusted_proxy_headers=True,
            asyncore_use_poll=True,
            log_socket_errors=False,
            expose_tracebacks=False,
            ident=None,
        )
        listening = self._listening
        described = (listening.family, listening.type, listening.proto, listening.getsockname())
        Worker(Timed(self._app), _sock=listening, adj=adjustments, sockinfo=described, bind_socket=False).run()
