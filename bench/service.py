#!/usr/bin/env python3
"""Measures lines a second of `zj play`, whose calls run over the block cache, beside the calls alone over a plain list of blocks and on
the plain service's tree, in the same run.

    bench/service.py ZJ CALLS_BENCH [FOLDER]

ZJ is the built program, CALLS_BENCH the built calls_bench. FOLDER lies in a file system in memory, /dev/shm where it is left out. A build
tree, a flat directory and a mail spool run on an image of 4,096 blocks and 1,024 nodes, with all lines on one core and with the lines
spread over four. The spool writes more blocks than a transaction may have, so there each core commits behind some changes. The time of `zj
play` is that of the whole program: it opens the image, reads home and the script, commits, and spells the answers; the others are the calls
alone.
"""
import os
import subprocess
import sys
import tempfile
import time

from scripts import build_tree, flat_directory, mail_spool, script

CALLS = 20_000
RUNS = 3
AREA = 16_777_216
# Behind so many changes a core commits in the spool: they fit a record.
SPOOL_CHANGES = 9


def play(zj, place, cores, text):
    """The seconds that `zj play` takes on a script, on an image of its own. No line is refused for want of room."""
    with tempfile.TemporaryDirectory(dir=place) as folder:
        subprocess.run([zj, "make", "4096", "1024", str(cores), str(AREA)], cwd=folder, check=True)
        begin = time.monotonic()
        done = subprocess.run([zj, "play"], cwd=folder, input=text, stdout=subprocess.PIPE, check=True)
        seconds = time.monotonic() - begin
    assert b" txfull " not in done.stdout and b" full " not in done.stdout
    return seconds


def alone(calls_bench, text):
    """The seconds that the calls take on the tree and over a list of blocks."""
    done = subprocess.run([calls_bench, "4096", "1024"], input=text, capture_output=True, check=True)
    words = done.stderr.decode().replace(",", "").split()
    return int(words[1]) / 1e6, int(words[4]) / 1e6


def main(zj, calls_bench, place="/dev/shm"):
    zj, calls_bench = os.path.realpath(zj), os.path.realpath(calls_bench)
    scripts = (("build tree", build_tree(CALLS), None), ("flat directory", flat_directory(CALLS), None), ("mail spool", mail_spool(5_000), SPOOL_CHANGES))
    for name, lines, commit in scripts:
        tree, blocks = (min(times) for times in zip(*(alone(calls_bench, script(lines, 4)) for _ in range(RUNS))))
        told = []
        for cores in (1, 4):
            seconds = min(play(zj, place, cores, script(lines, cores, commit)) for _ in range(RUNS))
            told.append(f"{len(lines) / seconds:,.0f} on {cores} core{'s' * (cores > 1)}")
        print(f"{name}: {', '.join(told)}, {len(lines) / blocks:,.0f} on a list of blocks, {len(lines) / tree:,.0f} on the tree")


if __name__ == "__main__":
    if len(sys.argv) not in (3, 4):
        sys.exit(__doc__)
    main(*sys.argv[1:])
