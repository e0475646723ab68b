"""Processes many descriptions on all the cores of one machine. Each process receives chunks of descriptions,
each with its plat.

    python3 examples/all_cores.py [--descriptions 1000000] [--workers CORES] [--seed 1]

The descriptions, in 36 townships, are generated from the seed. The answers are compared with those of a
single process. The last line of output gives the number of descriptions per second.
"""

from __future__ import annotations

import argparse
import multiprocessing
import os
import time

import many

TOWNSHIPS = 36
CHUNK = 5_000


def main() -> None:
    words = argparse.ArgumentParser(description="Process many descriptions on all cores.")
    words.add_argument("--descriptions", type=int, default=1_000_000)
    words.add_argument("--workers", type=int, default=os.cpu_count())
    words.add_argument("--seed", type=int, default=1)
    asked = words.parse_args()
    chunks = many.chunks(asked.seed, asked.descriptions, TOWNSHIPS, CHUNK)
    with multiprocessing.get_context("spawn").Pool(asked.workers) as pool:
        pool.map(many.answers, chunks[: asked.workers])
        begun = time.perf_counter()
        answered = pool.map(many.answers, chunks, chunksize=1)
        taken = time.perf_counter() - begun
    many.compare(chunks, answered)
    print(f"{asked.descriptions} descriptions, {asked.workers} workers: {asked.descriptions / taken:,.0f} a second")


if __name__ == "__main__":
    main()
