"""Runs a program on streams that fail.

An answer that cannot be written is said on standard error, and an input that
cannot be read counts as one that ends there.  The exit status is 0 all the
same.
"""

import os
import subprocess
import sys
from pathlib import Path

from program import to_bytes

PRINTED = to_bytes([0x1000020000100000, 0x00010000FFFFFFFB])


def expect(found, told):
    """End with what is not as told."""
    if found != told:
        sys.exit(f"streams: told {told}, found {found}")


def run_unwritten(program):
    """There is no room for the answer's first byte."""
    with open("/dev/full", "wb") as full:
        ended = subprocess.run([program], input=PRINTED, stdout=full,
                               stderr=subprocess.PIPE, check=False)
    name = Path(program).name
    what = "log" if name == "host_log" else "answer"
    told = f"{name}: the {what} was not written whole\n"
    expect((ended.returncode, ended.stderr.decode()), (0, told))


def run_unread(program):
    """A folder can be opened, and not read: there is no header word."""
    folder = os.open("/", os.O_RDONLY)
    ended = subprocess.run([program], stdin=folder, capture_output=True,
                           check=False)
    os.close(folder)
    expect((ended.returncode, ended.stdout), (0, b"refused 1\n"))


def main(program):
    run_unwritten(program)
    run_unread(program)
    print(f"streams: {Path(program).name} tells of an answer not written, "
          "and refuses what it cannot read")


if __name__ == "__main__":
    main(*sys.argv[1:])
