#!/usr/bin/python3
"""A log on the disk itself: a slot is three blocks of data and a commit block. It needs python3-libnbd.

usage: work_raw.py two|one

With `two` a FLUSH is between the data and the commit block, and another one after it. With `one` only the last FLUSH is
sent. That is the bug: after a loss of power a commit block may be there without its data. The slot is told after the
last FLUSH.
"""

import os
import sys

BLOCK, SLOTS = 4096, 100


def blocks_of(number):
    """The data of a slot."""
    return b"".join((b"data %06d.%d " % (number, part)).ljust(BLOCK, b".") for part in range(3))


def commit_of(number):
    """The commit block of a slot."""
    return (b"commit %06d " % number).ljust(BLOCK, b".")


def main():
    import nbd
    disk = nbd.NBD()
    disk.connect_unix(os.environ["CRASH_SOCKET"])
    for number in range(SLOTS):
        data, first = blocks_of(number), number * 4 * BLOCK
        for part in range(0, len(data), BLOCK):
            disk.pwrite(data[part:part + BLOCK], first + part)
        if sys.argv[1] == "two":
            disk.flush()
        disk.pwrite(commit_of(number), first + len(data))
        disk.flush()
        print(number, flush=True)
    disk.shutdown()


if __name__ == "__main__":
    main()
