"""Scripts for the benches, each a list of calls without their core."""
import random


def build_tree(calls):
    """A build: directories within each other, files made, looked at, listed and removed again."""
    lines = []
    for turn in range(calls):
        if len(lines) >= calls:
            break
        top = f"/build-{turn % 8}"
        lines += [f"mkdir {top}", f"mkdir {top}/src", f"mkdir {top}/src/parts", f"mkdir {top}/out"]
        for unit in range(12):
            lines += [
                f"create {top}/src/parts/unit-{unit}.c",
                f"stat {top}/src/parts/unit-{unit}.c",
                f"create {top}/out/unit-{unit}.o",
                f"stat {top}/out/unit-{unit}.o",
            ]
        lines += [f"list {top}/src/parts", f"list {top}/out"]
        if turn % 2:
            lines += [f"unlink {top}/out/unit-{unit}.o" for unit in range(12)]
            lines += [f"unlink {top}/src/parts/unit-{unit}.c" for unit in range(12)]
            lines += [f"rmdir {top}/out", f"rmdir {top}/src/parts", f"rmdir {top}/src", f"rmdir {top}"]
    return lines[:calls]


def flat_directory(calls):
    """One directory that fills up to 192 names, is looked through, and empties again."""
    lines = ["mkdir /flat"]
    while len(lines) < calls:
        lines += [f"create /flat/name-{k}" for k in range(192)]
        lines += [f"stat /flat/name-{k}" for k in range(192)]
        lines += ["list /flat"]
        lines += [f"unlink /flat/name-{k}" for k in range(192)]
    return lines[:calls]


def mail_spool(calls):
    """A spool: each letter is made, written, moved from one directory to the other, read and removed, 100 at a time."""
    letters = random.Random(1)
    lines = ["mkdir /new", "mkdir /cur"]
    turn = 0
    while len(lines) < calls:
        k = turn % 100
        if turn >= 100:
            lines += [f"read /cur/letter-{k} 0 6144", f"unlink /cur/letter-{k}"]
        size = letters.randrange(1024, 3073)
        lines += [f"create /new/letter-{k}", f"write /new/letter-{k} 0 {'x' * size}", f"rename /new/letter-{k} /cur/letter-{k}"]
        turn += 1
    return lines[:calls]


def random_calls(calls, seed):
    """Random calls on few names, so that all refusals come."""
    draw = random.Random(seed)
    names = ["a", "b", "c", "d"]

    def path(least=0):
        return "/" + "/".join(draw.choice(names) for _ in range(draw.randrange(least, 4)))

    def text():
        return "".join(draw.choice("abc") for _ in range(draw.choice((1, 3, 511, 512, 513, 1500, 6144))))

    def line():
        verb = draw.choice((
            "mkdir", "mkdir", "create", "create", "create", "unlink", "rmdir", "list", "stat", "rename", "rename", "write", "write",
            "read", "truncate", "many",
        ))
        if verb == "many":
            return f"create /{draw.choice(names)}/{draw.choice(names)}-{draw.randrange(40)}"
        if verb == "rename":
            return f"rename {path(1)} {path(1)}"
        if verb == "write":
            return f"write {path(1)} {draw.choice((0, 0, 1, 512, 6000))} {text()}"
        if verb == "read":
            return f"read {path(1)} {draw.choice((0, 1, 512, 7000))} {draw.choice((0, 1, 600, 6144, 6145))}"
        if verb == "truncate":
            return f"truncate {path(1)} {draw.choice((0, 1, 512, 513, 7000))}"
        return f"{verb} {path()}"

    return [line() for _ in range(calls)]


def object_files(calls):
    """A build with its files' bytes: eight projects, one after the other, each removed before it is built anew. Sources are written and looked
    at; objects are written under a name of their own, renamed and looked at; the directories are listed."""
    sizes = random.Random(2)
    lines = []
    turn = 0
    while len(lines) < calls:
        top = f"/project-{turn % 8}"
        parts = [f"{top}/src/parts/unit-{unit}.c" for unit in range(24)]
        objects = [f"{top}/out/unit-{unit}.o" for unit in range(24)]
        if turn >= 8:
            lines += [f"unlink {path}" for path in objects + parts]
            lines += [f"rmdir {top}{below}" for below in ("/out", "/src/parts", "/src", "")]
        lines += [f"mkdir {top}{below}" for below in ("", "/src", "/src/parts", "/out")]
        for source, made in zip(parts, objects):
            lines += [f"create {source}", f"write {source} 0 {'c' * sizes.randrange(100, 700)}", f"stat {source}"]
            lines += [f"create {made}.new", f"write {made}.new 0 {'o' * sizes.randrange(100, 700)}"]
            lines += [f"rename {made}.new {made}", f"stat {made}"]
        lines += [f"list {top}/src/parts", f"list {top}/out", f"stat {top}/out"]
        turn += 1
    return lines[:calls]


def client(calls):
    """A client that saves as editors and databases do: it looks at what is there, reads, writes a draft beside the old file and renames it over
    it, and notes what it did in an index of fixed size. All that it ever writes are fewer blocks than a record holds, so it may run without a
    commit."""
    draw = random.Random(3)
    lines = ["mkdir /inbox", "mkdir /notes", "create /index"]
    lines += [f"write /index {512 * k} {'-' * 512}" for k in range(8)]
    lines += [call for k in range(6) for call in (f"create /notes/note-{k}", f"write /notes/note-{k} 0 {'n' * 700}")]
    turn = 0
    while len(lines) < calls:
        turn += 1
        note, letter = f"/notes/note-{draw.randrange(6)}", f"/inbox/letter-{turn % 5}"
        lines += ["list /notes", f"stat {note}", f"read {note} 0 6144", "create /notes/draft", f"write /notes/draft 0 {'d' * draw.randrange(100, 1200)}"]
        lines += ["stat /notes/draft", f"rename /notes/draft {note}", f"stat {note}", f"read {note} 0 6144", "list /notes"]
        if turn > 5:
            lines += [f"stat {letter}", f"read {letter} 0 6144", f"unlink {letter}"]
        lines += [f"create {letter}", f"write {letter} 0 {'m' * draw.randrange(100, 1000)}", "list /inbox", f"stat {letter}", f"read {letter} 0 6144"]
        lines += ["stat /index", f"read /index {draw.randrange(4000)} 64", f"write /index {draw.randrange(4000)} saved:{turn}", "read /index 0 6144"]
    return lines[:calls]


CHANGES = ("mkdir", "create", "unlink", "rmdir", "rename", "write", "truncate")


def is_change(line):
    """Whether a call may change the tree."""
    return line.split(" ", 1)[0] in CHANGES


def script(lines, cores=1, commit=None):
    """The text of a script, whose calls are dealt out to the cores. Each core commits behind so many of its changes, where a number is given."""
    told, changes = [], [0] * cores
    for k, line in enumerate(lines):
        core = k % cores
        told.append(f"{core} {line}\n")
        changes[core] += is_change(line)
        if commit and is_change(line) and changes[core] % commit == 0:
            told.append(f"{core} commit\n")
    return "".join(told).encode()
