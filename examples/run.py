#!/usr/bin/env python3
"""Runs every example on the built program, and compares each answer.

    examples/run.py PROGRAM

`make` makes an image, and its bytes are compared. A script `examples/NAME.script` is played on such an image, or on one of two cores, and its
answers have to be those of `examples/NAME.answers`; schedules that commit leave journals of which `check` and `dump` tell what is recovered; scripts
that are refused tell the place; folders are named before the command. Then `check` and `play` read images that are whole, cut, overwritten,
swapped and absent; the answer, the status and the files are compared.
"""
import glob
import os
import struct
import subprocess
import sys
import tempfile

from image import home, journal, new_home, record, with_byte, write

HERE = os.path.dirname(os.path.abspath(__file__))
MAKE = ("make", "64", "8", "1", "50752")
TWO_CORES = ("make", "64", "8", "2", "50768")
# The scripts for another image than that.
PLAYED_ON = {"handles.script": TWO_CORES}


ROOT = "nodes 1 blocks 0\n"


def found(*counts, kept=None, tree=ROOT):
    """What `check` answers of journals that hold so many transactions, of which so many are kept, all where none are told."""
    pairs = zip(counts, kept or counts)
    return 0, "".join(f"j{core} from 0 found {count} kept {keeps}\n" for core, (count, keeps) in enumerate(pairs)) + tree, ""


def refused(text):
    return 3, "", f"zj: image {text}\n"


GOOD = journal(record())
NEW = {"home": new_home(), "j0": journal()}


def of_two(first, second):
    """A new image of two cores whose journals begin with these records."""
    return {"home": new_home(2, 50768), "j0": journal(first, 50768), "j1": journal(second, 50768)}


def node(kind, size, block):
    return struct.pack("<III", kind, size, block).ljust(64, b"\0")


def entry(leads_to, name):
    return struct.pack("<IBB", leads_to, len(name), 0) + name.ljust(26, b"\0")


# A record whose blocks show the root, the directory /a and the file /f of three bytes.
TREE = journal(record(blocks=[
    (0, 1, bytes(block < 4 or block >= 64 for block in range(512))),
    (1, 1, (node(2, 2, 2) + node(2, 0, 0) + node(1, 3, 3)).ljust(512, b"\0")),
    (2, 1, (entry(1, b"a") + entry(2, b"f")).ljust(512, b"\0")),
    (3, 1, b"hi ".ljust(512, b"\0")),
]))
CHECKED = [
    ("an empty journal", NEW, found(0)),
    ("one transaction", {"home": new_home(), "j0": GOOD}, found(1)),
    ("one transaction over blocks of zeros", {"home": home(), "j0": GOOD}, refused("notree rule 1 block 1")),
    ("a transaction that makes a tree", {"home": home(), "j0": TREE}, found(1, tree="nodes 3 blocks 2\n")),
    ("a gate that isn't open", {"home": new_home(), "j0": with_byte(GOOD, 0, 7)}, found(0)),
    ("another number", {"home": home(), "j0": with_byte(GOOD, 8, 5)},
     refused("damaged j0 at 8 found 5 expected 0")),
    ("a ring full of records", {"home": home(), "j0": journal(b"".join(map(record, range(794))))},
     refused("damaged j0 at 8 found 0 expected 794")),
    ("an empty folder", {}, refused("absent home")),
    ("no journal", {"home": home()}, refused("absent j0")),
    ("a cut journal", {"home": home(), "j0": GOOD[:-1]},
     refused("sizes j0 found 50751 expected 50752")),
    ("a cut home", {"home": home()[:-1], "j0": GOOD}, refused("sizes home found 40959 expected 40960")),
    ("a home of 8,191 bytes", {"home": home()[:8191], "j0": GOOD}, refused("notanimage at 0")),
    ("a closed home", {"home": with_byte(home(), 0, 0), "j0": GOOD}, refused("notanimage at 0")),
    ("other letters", {"home": with_byte(home(), 1, 0), "j0": GOOD}, refused("notanimage at 1")),
    ("the last epoch", {"home": new_home(epoch=2**62 - 1), "j0": GOOD}, found(1)),
    ("an epoch past the last", {"home": home(epoch=2**62), "j0": GOOD}, refused("notanimage at 8")),
    ("another version", {"home": with_byte(home(), 16, 9), "j0": GOOD}, refused("version found 9")),
    ("no core", {"home": with_byte(home(), 20, 0), "j0": GOOD}, refused("notanimage at 20")),
    ("swapped files", {"home": GOOD, "j0": home()}, refused("notanimage at 1")),
    ("two cores without their journals", {"home": home(2, 50768), "j0": journal(area=50768)},
     refused("absent j1")),
    ("two cores", of_two(b"", b""), found(0, 0)),
    ("two cores, one of which follows the other", of_two(record(bounds=(0, 0)), record(bounds=(1, 0))), found(1, 1)),
    ("two cores, one of which follows what isn't there", of_two(b"", record(bounds=(1, 0))), found(0, 1, kept=(0, 0))),
]

PLAYED = [
    ("a new image", NEW, (0, "1 0 0 names\n", "")),
    ("an empty folder", {}, refused("absent home")),
    ("no journal", {"home": new_home()}, refused("absent j0")),
    ("a journal with a record", {"home": new_home(), "j0": GOOD}, refused("unbuilt j0")),
    ("blocks of zeros", {"home": home(), "j0": journal()}, refused("notree rule 1 block 1")),
    ("a free block in use", {"home": with_byte(new_home(), 8192 + 2, 1), "j0": journal()},
     refused("notree rule 6 block 0")),
]

DUMPED = [
    ("a new image", NEW, (0, "/ dir 0\n", "")),
    ("a transaction that makes a tree", {"home": home(), "j0": TREE}, (0, "/ dir 2\n/a dir 0\n/f file 3 hi%20\n", "")),
    ("one transaction over blocks of zeros", {"home": home(), "j0": GOOD}, refused("notree rule 1 block 1")),
]

# Schedules that commit on a new image of two cores: the answers, and what is recovered then, as `check` and `dump` tell it. The first byte of
# a journal is the gate of its first record: where that isn't open, the record isn't there.
COMMITTED = [
    ("two transactions that follow each other", b"0 mkdir /a\n1 mkdir /b\n1 commit\n0 commit\n", "1 0 0 ok\n2 1 1 ok\n3 1 committed 0\n4 0 committed 0\n",
     found(1, 1, tree="nodes 3 blocks 1\n"), "/ dir 2\n/a dir 0\n/b dir 0\n"),
    ("one that follows what isn't there", b"0 mkdir /a\n1 mkdir /b\n1 commit\n", "1 0 0 ok\n2 1 1 ok\n3 1 committed 0\n",
     found(0, 1, kept=(0, 0)), "/ dir 0\n"),
    ("a core's own last contents", b"0 mkdir /a\n1 mkdir /b\n0 commit\n", "1 0 0 ok\n2 1 1 ok\n3 0 committed 0\n",
     found(1, 0, tree="nodes 2 blocks 1\n"), "/ dir 1\n/a dir 0\n"),
    ("nothing committed", b"0 mkdir /a\n1 commit\n", "1 0 0 ok\n2 1 empty\n", found(0, 0), "/ dir 0\n"),
]

# Where a script is refused: its line and a mark, and what was due.
REFUSED = [
    (b"0 list /\n0 mkdir a\n", "line 2 column 9 kind 3\n0 mkdir a\n        ^\ndue: a path, as / or /a/b, of at most 16 names, each of at most 26 letters, digits, and . _ -\n"),
    (b"0 list", "line 1 column 7 kind 3\n0 list\n      ^\ndue: a path, as / or /a/b, of at most 16 names, each of at most 26 letters, digits, and . _ -\n"),
    (b"4 list /", "line 1 column 1 kind 1\n4 list /\n^\ndue: a core below the image's count of cores, or in a schedule checkpoint\n"),
    (b"0 sync\n", "line 1 column 3 kind 2\n0 sync\n  ^\ndue: a call or an act that can stand here, or the end of the line\nnot built yet: fsync, look, sync and checkpoint\n"),
    (b"# \xff\n0 list /\xff\n", "line 2 column 8 kind 3\n0 list /?\n       ^\ndue: a path, as / or /a/b, of at most 16 names, each of at most 26 letters, digits, and . _ -\n"),
    (b"0 list " + b"/aaaa" * 14 + b"/ 1", "line 1 column 8 kind 3\n0 list " + "/aaaa" * 4 + "\n       ^\ndue: a path, as / or /a/b, of at most 16 names, each of at most 26 letters, digits, and . _ -\n"),
]

# Words of `make` that give no image its sizes, and what is told of them.
WRONG_SIZES = [
    (("64", "9", "1", "50752"), "NODES is a number from 8 to 1024, a multiple of 8"),
    (("64", "8", "01", "50752"), "CORES is a number from 1 to 8"),
    (("64", "8", "1", "50751"), "AREA is a number from 50736, and 16 more for each core, to 16777216"),
    (("16", "128", "1", "50752"),
     "BLOCKS is a number from 16 to 4096, and leaves a block behind those of the map and of the nodes"),
    (("64", "8", "1"), "make stands alone, or with four numbers: BLOCKS NODES CORES AREA"),
]


def compare(what, answer, want):
    """1 where an answer differs, which is told, and else 0."""
    if answer == want:
        return 0
    print(f"{what}: answered {answer}, and not {want}")
    return 1


def run(program, folder, *words, lines=b""):
    """The status of the program with these words in a folder, and what it writes to its two outputs."""
    done = subprocess.run([program, *words], cwd=folder, input=lines, capture_output=True)
    return done.returncode, done.stdout.decode(), done.stderr.decode()


def contents(folder):
    files = {}
    for name in os.listdir(folder):
        with open(os.path.join(folder, name), "rb") as file:
            files[name] = file.read()
    return files


def make(program):
    """Makes an image, tries it again there, and tries it over a home."""
    with tempfile.TemporaryDirectory() as folder:
        failed = compare("make", run(program, folder, *MAKE), (0, "", ""))
        failed += compare("a second make", run(program, folder, *MAKE), refused("exists j0"))
        failed += compare("make, the files", contents(folder) == NEW, True)
    with tempfile.TemporaryDirectory() as folder:
        write(folder, {"home": b""})
        failed += compare("make over a home", run(program, folder, *MAKE), refused("exists home"))
        failed += compare("make over a home, the files", contents(folder) == {"home": b"", "j0": journal()}, True)
    return failed


def play(program, script):
    """Plays a script on an image that the program made."""
    name = os.path.basename(script)
    with open(script, "rb") as file:
        lines = file.read()
    with open(script.removesuffix("script") + "answers") as file:
        want = 0, file.read(), ""
    with tempfile.TemporaryDirectory() as folder:
        failed = compare("make for " + name, run(program, folder, *PLAYED_ON.get(name, MAKE)), (0, "", ""))
        made = contents(folder)
        failed += compare(name, run(program, folder, "play", lines=lines), want)
        return failed + compare(name + ", the files", contents(folder) == made, True)


def commit(program, what, lines, answers, checked, dumped):
    """Plays a schedule that commits, and tells what is recovered; and what is, once the journal of core 0 has no open gate."""
    with tempfile.TemporaryDirectory() as folder:
        run(program, folder, "make", "64", "8", "2", "131072")
        home_before = contents(folder)["home"]
        failed = compare(what, run(program, folder, "play", lines=lines), (0, answers, ""))
        failed += compare(what + ", checked", run(program, folder, "check"), checked)
        failed += compare(what + ", dumped", run(program, folder, "dump"), (0, dumped, ""))
        after = contents(folder)
        failed += compare(what + ", home", after["home"] == home_before, True)
        if checked[1].startswith("j0 from 0 found 1"):
            write(folder, {"j0": with_byte(after["j0"], 0, 7)})
            failed += compare(what + ", without core 0's", run(program, folder, "dump"), (0, "/ dir 0\n", ""))
        return failed


def read(program, command, what, files, want):
    """Runs a command on an image that it only reads."""
    with tempfile.TemporaryDirectory() as folder:
        write(folder, files)
        failed = compare(f"{command}, {what}", run(program, folder, command, lines=b"0 list /\n"), want)
        return failed + compare(f"{command}, {what}, the files", contents(folder) == files, True)


def close_output(program, command):
    """Runs a command with its standard output closed: nothing reaches a file of the image."""
    with tempfile.TemporaryDirectory() as folder:
        run(program, folder, *MAKE)
        done = subprocess.run([program, command], cwd=folder, input=b"0 list /\n", stderr=subprocess.PIPE,
                              preexec_fn=lambda: os.close(1))
        failed = compare(f"{command}, a closed output", (done.returncode, done.stderr), (7, b"zj: output\n"))
        return failed + compare(f"{command}, a closed output, the files", contents(folder) == NEW, True)


def refuse(program, lines, place):
    """Plays a script that is refused."""
    with tempfile.TemporaryDirectory() as folder:
        run(program, folder, *MAKE)
        return compare(lines, run(program, folder, "play", lines=lines), (2, "", "zj: script " + place))


def refuse_sizes(program, sizes, text):
    """Asks for an image of sizes that none may have."""
    with tempfile.TemporaryDirectory() as folder:
        failed = compare(sizes, run(program, folder, "make", *sizes), (1, "", f"zj: words\n{text}\n"))
        return failed + compare("no file", contents(folder) == {}, True)


def option_cases(folder):
    """Words that begin with a folder, and what they answer in a folder that holds one named `inner`, which has a folder `image`."""
    absolute = os.path.join(folder, "inner", "image")
    nowhere = (3, "", "zj: folder nowhere: not found\n")
    unnamed = (1, "", "zj: words\n-C stands before the command, with a folder behind it: zj -C FOLDER COMMAND\n")
    return [
        (("-C", "inner", "-C", "image", *MAKE), (0, "", "")),
        (("-C", "inner/image", *MAKE), refused("exists j0")),
        (("-C", absolute, "check"), found(0)),
        (("-C", "nowhere", "-C", absolute, "check"), nowhere),
        (("-C", "inner", "-C", "..", "-C", "inner", "-C", "image", "dump"), (0, "/ dir 0\n", "")),
        (("-C", "inner", "-C", absolute, "play"), (0, "1 0 0 names\n", "")),
        (("-C", "inner/image", "--version"), (0, "zj 0.1.0\n", "")),
        (("-C", "nowhere", "--version"), (0, "zj 0.1.0\n", "")),
        (("-C", "nowhere", *MAKE), nowhere),
        (("-C", "inner", "-C", "nowhere", *MAKE), nowhere),
        (("-C", "nowhere", "nonsense"), nowhere),
        (("-C", "", *MAKE), (3, "", "zj: folder : not found\n")),
        (("-C", "new\nline", *MAKE), (3, "", "zj: folder new\\nline: not found\n")),
        (("-C", "file", *MAKE), (3, "", "zj: folder file: not a directory\n")),
        (("-C",), unnamed),
        (("-C", "inner", "-C"), unnamed),
        (("-C", "inner"), (1, "", "zj: words\n")),
        (("-C", "inner", "nonsense"), (1, "", "zj: words\n")),
        (("check", "-C", "inner/image"), (1, "", "zj: words\n")),
        ((), (1, "", "zj: words\n")),
    ]


def go(program):
    """Works in folders that are named before the command."""
    with tempfile.TemporaryDirectory() as folder:
        os.makedirs(os.path.join(folder, "inner", "image"))
        write(folder, {"file": b""})
        failed = sum(compare(words, run(program, folder, *words, lines=b"0 list /\n"), want) for words, want in option_cases(folder))
        told = run(program, folder, "--help")
        failed += compare("--help behind a folder", run(program, folder, "-C", "inner", "-C", "image", "--help"), told)
        failed += compare("--help behind a folder that isn't there", run(program, folder, "-C", "nowhere", "-h"), told)
        failed += compare("--help", (told[0], told[1].startswith("zj: a journalling"), told[2]), (0, True, ""))
        failed += compare("the files", (sorted(os.listdir(folder)), os.listdir(os.path.join(folder, "inner"))), (["file", "inner"], ["image"]))
        return failed + compare("the image", contents(os.path.join(folder, "inner", "image")) == NEW, True)


def main(program):
    program = os.path.realpath(program)
    scripts = sorted(glob.glob(os.path.join(HERE, "*.script")))
    failed = make(program) + sum(play(program, script) for script in scripts)
    for command, images in (("check", CHECKED), ("dump", DUMPED), ("play", PLAYED)):
        failed += sum(read(program, command, *image) for image in images)
    failed += sum(commit(program, *schedule) for schedule in COMMITTED)
    failed += sum(refuse(program, *script) for script in REFUSED)
    failed += sum(refuse_sizes(program, *sizes) for sizes in WRONG_SIZES)
    failed += go(program)
    failed += sum(close_output(program, command) for command in ("play", "check", "dump"))
    with tempfile.TemporaryDirectory() as folder:
        os.symlink("home", os.path.join(folder, "home"))
        failed += compare("a home that can't be opened", run(program, folder, "check"), (4, "", "zj: device home\n"))
    print(f"{len(scripts) + len(COMMITTED)} scripts played and {len(REFUSED)} refused, {len(CHECKED) + 1} images checked and {len(PLAYED)} played, {failed} answers differ")
    return failed != 0


if __name__ == "__main__":
    if len(sys.argv) != 2:
        sys.exit(__doc__)
    sys.exit(main(sys.argv[1]))
