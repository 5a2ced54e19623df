#!/usr/bin/env python3
"""Measures the block cache: handles a second of one, two and four threads, on blocks of their own and on one block, and
the time and the greatest memory that a cache of 4,096 blocks takes to be made. A ratio is to one thread in the same run;
of five runs the median of each figure is told.

    bench/turns.py PROGRAM [HANDLES]
"""
import fcntl
import os
import re
import statistics
import subprocess
import sys
import time

from measure import peak_memory

CASE = re.compile(r"(\d+) on (own blocks|one block): (\d+) us")
CACHE = re.compile(r"a cache for (\d+) cores: (\d+) us")
RUNS = 5


def run(program, handles):
    """The microseconds of each case, by its threads and its blocks, and of each cache, by its cores."""
    text = subprocess.run(
        [program, str(handles)], stdout=subprocess.DEVNULL, stderr=subprocess.PIPE, check=True, text=True
    ).stderr
    cases = {(blocks, int(threads)): int(took) for threads, blocks, took in CASE.findall(text)}
    return cases, {int(cores): int(took) for cores, took in CACHE.findall(text)}


def memory(program):
    """The greatest memory while the first cache is made, in KiB: its answer waits at a pipe that is full."""
    _, writer = os.pipe()
    os.write(writer, b"\0" * fcntl.fcntl(writer, fcntl.F_GETPIPE_SZ))
    waiting = subprocess.Popen([program, "0"], stdout=writer, stderr=subprocess.DEVNULL)
    time.sleep(2)
    most = peak_memory(waiting)
    waiting.kill()
    waiting.wait()
    return most


def main(program, handles):
    runs = [run(program, handles) for _ in range(RUNS)]
    for blocks, threads in runs[0][0]:
        rates = [threads * handles * 1_000_000 / cases[blocks, threads] for cases, _ in runs]
        ratios = [threads * cases[blocks, 1] / cases[blocks, threads] for cases, _ in runs]
        rate, ratio = statistics.median(rates), statistics.median(ratios)
        print(f"{threads} threads on {blocks}: {rate:,.0f} handles a second, {ratio:.2f} times one thread")
    for cores in runs[0][1]:
        took = statistics.median(caches[cores] for _, caches in runs)
        print(f"a cache of 4,096 blocks for {cores} cores: {took / 1000:.1f} ms")
    print(f"greatest memory by then, with the blocks that it begins with: {memory(program)} KiB")


if __name__ == "__main__":
    if len(sys.argv) not in (2, 3):
        sys.exit(__doc__)
    main(os.path.realpath(sys.argv[1]), int(sys.argv[2]) if len(sys.argv) == 3 else 100_000)
