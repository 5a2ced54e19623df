#!/usr/bin/env python3
"""Measures `zj check`: time and greatest memory for full journals of 16,777,216 bytes, with records of no block, of
one block and of 48 blocks, over a new home. The blocks of the records are ones that the tree doesn't use.

    bench/scan.py PROGRAM
"""
import fcntl
import os
import subprocess
import sys
import tempfile
import time

from measure import peak_memory
from image import journal, new_home, record, write

AREA = 16777216
LONGEST = 25376
FIRST_DATA = 2


def full(blocks):
    """A full journal, and how many records of how many bytes it has: from 0 on up to where a longest one fits."""
    content = [(block, 1, b"\x5a" * 512) for block in range(FIRST_DATA, FIRST_DATA + blocks)]
    length = len(record(0, blocks=content))
    count = (AREA - LONGEST) // length
    return journal(b"".join(record(n, blocks=content) for n in range(count)), AREA), count, length


def main(program):
    program = os.path.realpath(program)
    with tempfile.TemporaryDirectory() as folder:
        for blocks in (0, 1, 48):
            image, count, length = full(blocks)
            write(folder, {"home": new_home(area=AREA), "j0": image})
            taken = []
            for _ in range(5):
                start = time.monotonic()
                run = subprocess.run([program, "check"], cwd=folder, stdout=subprocess.PIPE)
                taken.append(time.monotonic() - start)
                assert run.stdout == b"j0 from 0 found %d kept %d\nnodes 1 blocks 0\n" % (count, count), run.stdout
            # The answer waits at a pipe that is full; by then all memory is taken.
            _, writer = os.pipe()
            os.write(writer, b"\0" * fcntl.fcntl(writer, fcntl.F_GETPIPE_SZ))
            waiting = subprocess.Popen([program, "check"], cwd=folder, stdout=writer)
            time.sleep(2)
            memory = peak_memory(waiting)
            waiting.kill()
            waiting.wait()
            print(f"{count} records of {length} bytes: {min(taken) * 1000:.0f} ms, {memory} KiB at most")


if __name__ == "__main__":
    if len(sys.argv) != 2:
        sys.exit(__doc__)
    main(sys.argv[1])
