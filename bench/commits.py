#!/usr/bin/env python3
"""Measures commits a second of `zj play` beside a plain program that makes the same writes and two data syncs on a file of its own, in
the same run; and `zj check` of eight full journals of 16,777,216 bytes beside `cat` of them, where all records are kept, and where the last
one of each journal follows one that is missing, so that all journals are read twice.

    bench/commits.py PROGRAM

Each transaction writes the one block of a file again. The plain program writes the body of each record, syncs, writes its gate, and syncs; it is
this one, which takes a few microseconds for each call. The time of `zj play` is that of the whole program.
"""
import os
import subprocess
import sys
import tempfile
import time

import measure  # it finds the image maker
from image import journal, new_home, record, write

COMMITS = 1_000
RUNS = 3
AREA = 16_777_216
LONGEST = 25_432
FIRST_DATA = 2
MISSING = 1_000_000  # more than a journal has


def schedule():
    lines = ["0 create /f", "0 commit"]
    for number in range(COMMITS):
        lines += [f"0 write /f 0 {number:064}", "0 commit"]
    return "\n".join(lines).encode() + b"\n"


def play(program, folder, lines):
    """The seconds that `zj play` takes on a new image, and the length of a record."""
    subprocess.run([program, "make", "64", "8", "1", str(AREA)], cwd=folder, check=True)
    begin = time.monotonic()
    done = subprocess.run([program, "play"], cwd=folder, input=lines, stdout=subprocess.PIPE, check=True)
    seconds = time.monotonic() - begin
    assert done.stdout.count(b" committed ") == COMMITS + 1
    for name in ("home", "j0"):
        os.remove(os.path.join(folder, name))
    return seconds


def plain(folder, length):
    """The seconds that the writes and syncs of so many records take."""
    path = os.path.join(folder, "plain")
    with open(path, "wb") as file:
        file.write(b"\0" * AREA)
    handle = os.open(path, os.O_RDWR)
    os.fsync(handle)
    body, begin = b"\x5a" * (length - 1), time.monotonic()
    for number in range(COMMITS + 1):
        place = number * length
        os.pwrite(handle, body, place + 1)
        os.pwrite(handle, b"\0", place + length)
        os.fdatasync(handle)
        os.pwrite(handle, b"\1", place)
        os.fdatasync(handle)
    seconds = time.monotonic() - begin
    os.close(handle)
    os.remove(path)
    return seconds


def best(measured):
    return min(measured() for _ in range(RUNS))


def full(blocks, core, ahead):
    """A full journal of a core of eight, and how many records it has: none follows another core, but the last one, so far."""
    content = [(block, 1, b"\x5a" * 512) for block in range(FIRST_DATA, FIRST_DATA + blocks)]
    bounds = [(0,) * 8, tuple(ahead if other == (core + 1) % 8 else 0 for other in range(8))]
    count = (AREA - LONGEST) // len(record(0, blocks=content, bounds=bounds[0]))
    return journal(b"".join(record(n, blocks=content, bounds=bounds[n + 1 == count]) for n in range(count)), AREA), count


def check(program, folder, ahead, words):
    made = [full(48, core, ahead) for core in range(8)]
    names = [f"j{core}" for core in range(8)]
    write(folder, {"home": new_home(8, AREA), **{name: image for name, (image, _) in zip(names, made)}})

    def timed(*words):
        begin = time.monotonic()
        subprocess.run(words, cwd=folder, stdout=subprocess.DEVNULL, check=True)
        return time.monotonic() - begin

    told, read = best(lambda: timed(program, "check")), best(lambda: timed("cat", *names))
    print(f"check of eight journals of {made[0][1]} records, {words}: {told * 1000:.0f} ms; cat: {read * 1000:.0f} ms; {told / read:.1f} times")


def main(program):
    program = os.path.realpath(program)
    lines = schedule()
    length = 24 + 8 + 528
    with tempfile.TemporaryDirectory(dir=os.getcwd()) as folder:
        ours, theirs = best(lambda: play(program, folder, lines)), best(lambda: plain(folder, length))
        count = COMMITS + 1
        print(f"{count / ours:,.0f} commits a second; {count / theirs:,.0f} by plain writes and syncs; {theirs / ours:.2f} of these")
        check(program, folder, 0, "all kept")
        check(program, folder, MISSING, "the last of each dropped")


if __name__ == "__main__":
    if len(sys.argv) != 2:
        sys.exit(__doc__)
    main(sys.argv[1])
