"""The limits of the server."""
from __future__ import annotations

import os

#: The port on which the server listens by default: 36 is the number of sections in a township.
PORT = 8036

#: The largest body of a request, and its largest head, in bytes.
BODY_MOST = 2 * 1024 * 1024
HEAD_MOST = 16 * 1024

#: The processes of the server, and the most requests that each of them answers at a time. There are more processes than
#: processors, since connections are not spread evenly over them.
PROCESSES = min(16, 2 * max(2, len(os.sched_getaffinity(0))))
THREADS = 32

#: A request with a larger body may take long. Each process computes few answers to such requests at a time.
SMALL_MOST = 8 * 1024
LARGE_THREADS = 2

#: The most connections at a time, of all processes. Further ones wait.
CONNECTIONS_MOST = 1_000

#: The bytes of a request or of an answer that are kept in memory. What is longer is kept in a temporary file.
IN_MEMORY = 64 * 1024

#: The size from which memory is given back to the system as soon as it is free.
GIVEN_BACK = 256 * 1024

#: The most bytes of requests that are arriving, and of answers that are not read, in each process; and those for which
#: a connection is not closed to make room for others.
HELD_MOST = 32 * 1024 * 1024
HELD_USUAL = 64 * 1024

#: The bytes of an answer that the system keeps for each connection.
SYSTEM_MOST = 128 * 1024

#: The seconds from the first byte of a request to its answer, within which it must arrive and be computed.
SECONDS_MOST = 10

#: The seconds after which a computation that is late is taken for one that never ends, and its process is ended.
ENDLESS = 60

#: The seconds that a connection may do nothing: without a request, or with an answer that is not read.
IDLE_MOST = 10

#: The seconds within which an answer must be read.
READING_MOST = 60

#: The most descriptions of a batch, and tracts of a list.
DESCRIPTIONS_MOST = 50_000
TRACTS_MOST = 1_000

#: The most phrases that readings leave out.
PHRASES_MOST = 100

#: The most overlapping pairs of tracts that are named.
PAIRS_MOST = 1_000

#: The most doubtful places of a description that are marked, and of all tracts of a list.
DOUBTS_MOST = 64
DOUBTS_OF_LIST_MOST = 1_000

#: The most characters of the canonical descriptions of overlapping land in an answer.
OVERLAPS_TEXT_MOST = 1 << 20
