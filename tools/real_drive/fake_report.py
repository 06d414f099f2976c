"""Shows the zones of a fake drive as `nvme zns report-zones` does: fake_report.py SIZE FILE"""

import struct
import sys

READ_ONLY = 13


def main():
    """A line for each zone."""
    size = int(sys.argv[1])
    with open(sys.argv[2], "rb") as file:
        zones = list(struct.iter_unpack("<II", file.read()))
    for number, (state, written) in enumerate(zones):
        start = number * size
        pointer = start + (size if state >= READ_ONLY else written)
        print(f"SLBA: {start:#x} WP: {pointer:#x} Cap: {size:#x} State: {state << 4:#x}")


main()
