"""The server, with answers that harm it: `python3 slow.py serve`. The library has no answer that takes so long."""
from __future__ import annotations

import ctypes
import os
import signal
import sys
import time
from typing import Dict

from township._command import main
from township._web import limits
from township._web.app import ANSWERS


def spin(body: bytes) -> Dict[str, object]:
    """Compute in Python, and never end."""
    while True:
        pass


def wait(body: bytes) -> Dict[str, object]:
    """Wait in a function of C, as a call of the library that never ends would."""
    while True:
        ctypes.CDLL(None).sleep(1000)


def late(body: bytes) -> Dict[str, object]:
    """Answer, but too late."""
    time.sleep(limits.SECONDS_MOST + 1)
    return {}


def die(body: bytes) -> Dict[str, object]:
    """End the process, as a fault of memory would."""
    os.kill(os.getpid(), signal.SIGSEGV)
    return wait(body)


ANSWERS.update(spin=spin, wait=wait, late=late, die=die)

#: The seconds after which what never ends is ended with its process, and within which an answer must be read, so that the
#: tests need not wait for a minute.
limits.ENDLESS = 3
limits.READING_MOST = 5

if __name__ == "__main__":
    sys.exit(main())
