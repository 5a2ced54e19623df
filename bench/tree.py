#!/usr/bin/env python3
"""Measures `zj play` beside a C program that makes the same calls on a real directory, and a script with commits beside the same one without
them, all in a file system in memory.

    bench/tree.py PROGRAM [FOLDER]

PROGRAM is the built zj. FOLDER lies in a file system in memory, /dev/shm where it is left out. `cc` builds the C program, `bench/directory.c`. A
time is that of the processor in the whole program, in itself and in the system, from its start to its end, the least of some rounds; so other work
on the machine counts for little. Each run has an image or a directory of its own. The answers of zj and of C are compared.
"""
import os
import subprocess
import sys
import tempfile

from scripts import client, is_change, object_files, script

ROUNDS = 9
BUILD_CALLS = 31_200
CLIENT_CALLS = 18_660
# A commit comes behind so many changes: as many as surely fit a record, and few.
BUILD_CHANGES = 30
CLIENT_CHANGES = 3
AREA = 16_777_216
HERE = os.path.dirname(os.path.abspath(__file__))


def timed(words, folder, text):
    """The seconds of the processor that a program takes on a script in a folder, and what it answers."""
    with open(os.path.join(folder, "script"), "wb+") as lines, open(os.path.join(folder, "answers"), "wb+") as answers:
        lines.write(text)
        lines.seek(0)
        os.mkdir(os.path.join(folder, "image"))
        for word in words[:-1]:
            subprocess.run(word, cwd=os.path.join(folder, "image"), check=True)
        process = subprocess.Popen(words[-1], cwd=os.path.join(folder, "image"), stdin=lines, stdout=answers)
        _, status, used = os.wait4(process.pid, 0)
        process.returncode = status
        assert status == 0
        answers.seek(0)
        return used.ru_utime + used.ru_stime, answers.read()


def least(place, *runs):
    """Of each run the least time, and the answers, which are the same in all rounds. The runs take turns."""
    told = [[] for _ in runs]
    for _ in range(ROUNDS):
        for times, (words, text) in zip(told, runs):
            with tempfile.TemporaryDirectory(dir=place) as folder:
                times.append(timed(words, folder, text))
    assert all(answers == times[0][1] for times in told for _, answers in times)
    return [(min(seconds for seconds, _ in times), times[0][1]) for times in told]


def build(ours, theirs, place):
    lines = object_files(BUILD_CALLS)
    text = script(lines, commit=BUILD_CHANGES)
    (our_time, answers), (their_time, same) = least(place, (ours, text), (theirs, text))
    assert answers == same, next(pair for pair in zip(answers.splitlines(), same.splitlines()) if pair[0] != pair[1])
    print(f"a build of {len(lines):,} calls and {answers.count(b' committed '):,} commits: {our_time * 1000:.1f} ms, by C on a directory "
          f"{their_time * 1000:.1f} ms: {our_time / their_time:.2f} times")


def client_commits(ours, theirs, place):
    lines = client(CLIENT_CALLS)
    plain, committed = script(lines), script(lines, commit=CLIENT_CHANGES)
    (without, answers), (with_commits, told), (_, same), (_, same_told) = least(
        place, (ours, plain), (ours, committed), (theirs, plain), (theirs, committed))
    assert (answers, told) == (same, same_told)
    print(f"a client of {len(lines):,} calls, {sum(map(is_change, lines)):,} of them changes: {without * 1000:.1f} ms; with "
          f"{told.count(b' committed '):,} commits {with_commits * 1000:.1f} ms: {with_commits / without:.2f} times")


def main(zj, place="/dev/shm"):
    zj = os.path.realpath(zj)
    with tempfile.TemporaryDirectory() as folder:
        plain = os.path.join(folder, "directory")
        subprocess.run(["cc", "-O2", "-o", plain, os.path.join(HERE, "directory.c")], check=True)
        ours, theirs = [[zj, "make", "4096", "1024", "1", str(AREA)], [zj, "play"]], [[plain]]
        build(ours, theirs, place)
        client_commits(ours, theirs, place)


if __name__ == "__main__":
    if len(sys.argv) not in (2, 3):
        sys.exit(__doc__)
    main(*sys.argv[1:])
