"""What the benches share: the image maker of the examples, and the greatest memory of a program."""
import os
import sys

sys.path.insert(0, os.path.join(os.path.dirname(os.path.abspath(__file__)), "..", "examples"))


def peak_memory(process):
    """The greatest memory that a running process has had, in KiB."""
    with open(f"/proc/{process.pid}/status") as status:
        return int(next(line.split()[1] for line in status if line.startswith("VmHWM")))
