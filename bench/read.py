#!/usr/bin/env python3
"""Measures how long full images are read, and the greatest memory of the program that does it, by shape and size.

    bench/read.py PROGRAM

PROGRAM is the built read_bench.
"""
import fcntl
import os
import subprocess
import sys
import time

from measure import peak_memory


def least_time(words):
    """The least time of some readings, in microseconds."""
    return min(
        int(subprocess.run(words, capture_output=True, check=True).stderr.split()[1])
        for _ in range(5)
    )


def memory(words):
    """The greatest memory up to the first reading, in KiB. What it says of the tree waits at a pipe that is full."""
    reader, writer = os.pipe()
    os.write(writer, b"\0" * fcntl.fcntl(writer, fcntl.F_GETPIPE_SZ))
    waiting = subprocess.Popen(words, stdout=writer)
    time.sleep(1)
    peak = peak_memory(waiting)
    waiting.kill()
    waiting.wait()
    os.close(reader)
    os.close(writer)
    return peak


def main(program):
    program = os.path.realpath(program)
    for shape in ("flat", "nested", "deep"):
        for blocks, nodes in ((1024, 256), (2048, 512), (4096, 1024)):
            words = [program, str(blocks), str(nodes), shape]
            print(f"{shape}, {blocks} blocks, {nodes} nodes: {least_time(words)} us, {memory(words)} KiB at most")


if __name__ == "__main__":
    if len(sys.argv) != 2:
        sys.exit(__doc__)
    main(sys.argv[1])
