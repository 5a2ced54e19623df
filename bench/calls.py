#!/usr/bin/env python3
"""Measures calls a second on blocks, beside the plain service on a tree in the same run, and compares the replies.

    bench/calls.py PROGRAM

PROGRAM is the built calls_bench. A build tree, a flat directory and a mail spool run on an image of 4,096 blocks and 1,024
nodes; random calls run on images of 16 to 64 blocks.
"""
import os
import subprocess
import sys

from scripts import build_tree, flat_directory, mail_spool, random_calls, script

CALLS = 20_000
RUNS = 3


def run(program, blocks, nodes, text):
    """What the program says, and the microseconds that the tree and the blocks took."""
    done = subprocess.run([program, str(blocks), str(nodes)], input=text, capture_output=True, check=True)
    words = done.stderr.decode().replace(",", "").split()
    return done.stdout.decode().strip(), int(words[1]), int(words[4])


def main(program):
    program = os.path.realpath(program)
    for name, lines in (("build tree", build_tree(CALLS)), ("flat directory", flat_directory(CALLS)), ("mail spool", mail_spool(5_000))):
        text = script(lines, 4)
        told = [run(program, 4096, 1024, text) for _ in range(RUNS)]
        tree, blocks = (len(lines) * 1_000_000 // min(times) for times in zip(*(t[1:] for t in told)))
        print(f"{name}: {told[0][0]}; {blocks} calls a second on blocks, {tree} on the tree")
    differ = 0
    for seed in range(20):
        said, _, _ = run(program, 16 + 48 * seed // 19, 8 + 8 * (seed % 4), script(random_calls(1_000, seed), 4))
        differ += said != "1000 calls, the same replies"
    print(f"20 scripts of 1,000 random calls: {differ} with other replies")
    return differ != 0


if __name__ == "__main__":
    if len(sys.argv) != 2:
        sys.exit(__doc__)
    sys.exit(main(sys.argv[1]))
