#!/usr/bin/env python3
"""Makes images of zj, byte by byte: for a person to keep, for `examples/run.py` and for the benches.

    examples/image.py FOLDER [RECORDS]

writes a new home of one core with 64 blocks and 8 nodes into the folder, and its journal j0 with so many transactions
that write no block (1 where the number is left out). `zj check` reads it there.
"""
import os
import struct
import sys

AREA = 50752
BLOCKS = 64
NODES = 8


def home(cores=1, area=AREA, blocks=BLOCKS, nodes=NODES, epoch=1):
    """A home: its super in the slot at 0, all tails 0, and zero blocks."""
    slot = struct.pack("<B7sQIIIIQ", 1, b"ZJ-HOME", epoch, 1, cores, blocks, nodes, area)
    return slot.ljust(8192 + 512 * blocks, b"\0")


def new_home(cores=1, area=AREA, epoch=1):
    """The home of a new image: the map, of which the blocks of map and nodes are in use, and node 0, a directory."""
    used = 1 + NODES // 8
    in_use = bytes(block < used or block >= BLOCKS for block in range(512))
    return home(cores, area, epoch=epoch)[:8192] + (in_use + b"\x02").ljust(512 * BLOCKS, b"\0")


def record(number=0, gate=1, blocks=(), bounds=(0,)):
    """A record: the number of its transaction, (block, stamp, content) of each block, and the bound on each core."""
    head = struct.pack(f"<QQII{len(bounds)}Q", gate, number, len(blocks), len(bounds), *bounds)
    return head + b"".join(struct.pack("<IIQ", block, 0, stamp) + content for block, stamp, content in blocks)


def journal(records=b"", area=AREA):
    """A journal that begins with these bytes."""
    return records.ljust(area, b"\0")


def with_byte(image, at, value):
    return image[:at] + bytes([value]) + image[at + 1:]


def write(folder, files):
    """Writes each file of an image into a folder."""
    for name, image in files.items():
        with open(os.path.join(folder, name), "wb") as file:
            file.write(image)


def main(folder, count="1"):
    os.makedirs(folder, exist_ok=True)
    records = b"".join(record(number) for number in range(int(count)))
    write(folder, {"home": new_home(), "j0": journal(records)})


if __name__ == "__main__":
    if len(sys.argv) not in (2, 3):
        sys.exit(__doc__)
    main(*sys.argv[1:])
