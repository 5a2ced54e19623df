#!/usr/bin/env python3
"""Measures `zj play` on a new image: time and greatest memory for scripts of 15,000, 30,000 and 60,000 lines.

    bench/play.py PROGRAM
"""
import os
import subprocess
import sys
import tempfile
import time

from measure import peak_memory


def script(lines):
    return "".join(
        "0 list /\n" if i % 2 else f"0 mkdir /directory{i % 12}\n" for i in range(lines)
    ).encode()


def play(program, folder):
    with open(os.path.join(folder, "script"), "rb") as lines:
        return subprocess.Popen([program, "play"], cwd=folder, stdin=lines, stdout=subprocess.PIPE)


def main(program):
    program = os.path.realpath(program)
    with tempfile.TemporaryDirectory() as folder:
        subprocess.run([program, "make", "64", "8", "1", "50752"], cwd=folder, check=True)
        for lines in (15000, 30000, 60000):
            text = script(lines)
            with open(os.path.join(folder, "script"), "wb") as file:
                file.write(text)
            taken = []
            for _ in range(5):
                start = time.monotonic()
                answers = play(program, folder).communicate()[0]
                taken.append(time.monotonic() - start)
                assert answers.count(b"\n") == lines
            # At the first byte of the answers all memory is taken, and the pipe is too small for the rest.
            waiting = play(program, folder)
            waiting.stdout.read(1)
            memory = peak_memory(waiting)
            waiting.communicate()
            print(f"{lines} lines, {len(text)} bytes: {min(taken) * 1000:.0f} ms, {memory} KiB at most")


if __name__ == "__main__":
    if len(sys.argv) != 2:
        sys.exit(__doc__)
    main(sys.argv[1])
