"""Resets a zone of a fake drive as `nvme zns reset-zone` does: fake_reset.py SIZE FILE START"""

import struct
import sys

EMPTY = 1


def main():
    """The zone is Empty. Its blocks stay where they are, as on many drives."""
    zone = int(sys.argv[3]) // int(sys.argv[1])
    with open(sys.argv[2], "r+b") as file:
        file.seek(8 * zone)
        file.write(struct.pack("<II", EMPTY, 0))


main()
