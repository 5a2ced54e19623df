#!/usr/bin/env python3
"""Runs what README.md says to run, and looks for what it says is printed.

    examples/readme.py [PROGRAM]

It works in a fresh clone of the last commit. A paragraph of lines that are four spaces in is a block of commands, or, where the text in front of it ends
with `prints` or `are`, lines that the last commands print, side by side. Every block of commands runs but the gate. PROGRAM is a built zj; where it is
given, it stands for the one that README.md builds.
"""
import os
import re
import shutil
import subprocess
import sys
import tempfile

TOP = os.path.join(os.path.dirname(os.path.abspath(__file__)), "..")
GATE = "rt ci"
BUILD = "rt run"


def blocks(text):
    """The blocks of a text, in order: whether it is one of output, and its lines."""
    told, output = [], False
    for part in re.split(r"\n\n+", text):
        if part.startswith("    "):
            told.append((output, re.sub(r"^    ", "", part, flags=re.M)))
        else:
            output = re.search(r"(prints|are)$", part) is not None
    return told


def run(commands, clone, path):
    print(f"{commands}\n", flush=True)
    done = subprocess.run(["sh", "-e", "-c", commands], cwd=clone, env={**os.environ, "PATH": path}, stdout=subprocess.PIPE, text=True)
    return done.stdout, done.returncode != 0


def main(program=None):
    failed, output = 0, ""
    with tempfile.TemporaryDirectory() as folder:
        clone, programs = os.path.join(folder, "clone"), os.path.join(folder, "programs")
        subprocess.run(["git", "clone", "-q", TOP, clone], check=True)
        os.mkdir(programs)
        path = f"{programs}:{os.environ['PATH']}"
        with open(os.path.join(clone, "README.md")) as file:
            told = blocks(file.read())
        for is_output, text in told:
            if is_output:
                missing = f"\n{text}\n" not in f"\n{output}"
                failed += missing
                print(f"not printed:\n{text}\n" if missing else "", end="")
            elif text.startswith(GATE) or (BUILD in text and program):
                print(f"not run: {text}\n")
            else:
                output, wrong = run(text, clone, path)
                failed += wrong
            if BUILD in text:
                shutil.copy(program or os.path.join(clone, "crates", "zj", "out", "zj"), os.path.join(programs, "zj"))
    print(f"{len(told)} blocks, {failed} differ")
    return failed != 0


if __name__ == "__main__":
    if len(sys.argv) not in (1, 2):
        sys.exit(__doc__)
    sys.exit(main(*sys.argv[1:]))
