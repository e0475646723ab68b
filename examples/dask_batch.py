"""Processes many descriptions on many machines, with Dask.

    python3 examples/dask_batch.py [--scheduler HOST:PORT] [--descriptions 1000000] [--workers 2] [--seed 1]

If no scheduler is given, the example starts a cluster on this machine with the given number of workers. Every
worker needs the package `township` and this file's folder on its path. The descriptions, in 36 townships, are
generated from the seed. The answers are compared with those of a single process.
"""

from __future__ import annotations

import argparse
import time

import many
from distributed import Client, LocalCluster

TOWNSHIPS = 36
CHUNK = 5_000


def main() -> None:
    words = argparse.ArgumentParser(description="Process many descriptions with Dask.")
    words.add_argument("--scheduler", help="the address of a running scheduler")
    words.add_argument("--descriptions", type=int, default=1_000_000)
    words.add_argument("--workers", type=int, default=2)
    words.add_argument("--seed", type=int, default=1)
    asked = words.parse_args()
    chunks = many.chunks(asked.seed, asked.descriptions, TOWNSHIPS, CHUNK)
    with cluster_of(asked) as client:
        begun = time.perf_counter()
        tasks = client.map(many.answers_packed, [many.packed(chunk) for chunk in chunks], pure=False)
        answered = many.unpacked(client.gather(tasks))
        taken = time.perf_counter() - begun
    many.compare(chunks, answered)
    print(f"{asked.descriptions} descriptions by Dask: {asked.descriptions / taken:,.0f} a second")


def cluster_of(asked: argparse.Namespace) -> Client:
    if asked.scheduler:
        return Client(asked.scheduler)
    return Client(LocalCluster(n_workers=asked.workers, threads_per_worker=1, dashboard_address=None))


if __name__ == "__main__":
    main()
