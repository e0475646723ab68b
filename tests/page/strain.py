"""How much longer this machine takes than the one that the limits of times are for, when that is idle."""
from __future__ import annotations

import os
import time
from pathlib import Path
from typing import Tuple


# The most times as long that something may take: on a machine that is busier, a test that measures times fails.
MOST = 6.0

#: The seconds that the calculation takes on a processor of 2.5 GHz for which the limits are, and how often it is timed:
#: the least time counts, in which nothing else disturbed it.
REFERENCE = 0.010
RUNS = 20


class Strain:
    """The speed of this machine, other work on it, and that of others on its host, since the object was made."""

    def __init__(self) -> None:
        self._slower = slowness()
        self._begin = times()
        self._running = 0

    def look(self) -> None:
        """Note how many processes run now. The load average takes a minute to show those that have just begun."""
        running, _, _ = Path("/proc/loadavg").read_text().split()[3].partition("/")
        self._running = max(self._running, int(running))

    def factor(self) -> float:
        """Return how many times as long something may take, at most MOST: by the speed of a processor, the processes
        for each of them, and the share of the processors' time that the host gave to others."""
        processes = max(os.getloadavg()[0], self._running) / (os.cpu_count() or 1)
        busy, stolen = (now - begin for now, begin in zip(times(), self._begin))
        share = stolen / (busy + stolen) if stolen else 0.0
        return min(MOST, self._slower * max(1.0, processes) / (1 - min(share, 0.9)))


def slowness() -> float:
    """Return how many times as long a processor takes as the one that the limits are for: 1 if it is faster.

    A limit is what a user notices on a machine of today. An older one, or a virtual one, may take twice as long for
    everything, and the page is then not slower than it was. So that the goal stays tested, nothing is allowed to a
    machine that calculates as fast as the reference.
    """
    return max(1.0, min(_seconds() for _ in range(RUNS)) / REFERENCE)


def _seconds() -> float:
    """Return how long a calculation takes that is like those of the server: it makes texts, and looks them up."""
    begin = time.perf_counter()
    found = {}
    for number in range(20_000):
        text = f"sec. {number % 36}, lot {number}"
        found[text] = len(text.split(", "))
    return time.perf_counter() - begin


def times() -> Tuple[int, int]:
    """Return how long the processors have worked, and how long the host gave their time to others, in ticks."""
    user, nice, system, _, _, irq, softirq, steal = map(int, Path("/proc/stat").read_text().split()[1:9])
    return user + nice + system + irq + softirq, steal
