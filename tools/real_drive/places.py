"""Where the batches of a drive are, read from the file that keeps its blocks."""

import struct

MAGIC = b"ZLOGBAT1"
# The bit of an entry that is a trim.
TRIM = 1 << 63


class Batch:
    """A batch: the address of its header, its sequence, whether it is a Move, and the address of each block's data.

    A trim has no data."""

    def __init__(self, header, block):
        version, kind, count, self.sequence = struct.unpack_from("<HHIQ", block, 8)
        entries = struct.unpack_from(f"<{count}Q", block, 32)
        self.header, self.is_move, self.data, self.trims = header, kind == 2, {}, set()
        for entry in entries:
            if entry & TRIM:
                self.trims.add(entry & ~TRIM)
            else:
                self.data[entry] = header + 1 + len(self.data)
        self.length = 1 + len(self.data)


def batches_of(shape, image):
    """The batches of all zones of a drive that can be mounted."""
    found = []
    with open(image, "rb") as file:
        for zone in range(shape.zones):
            file.seek(zone * shape.size * shape.block)
            held, at = file.read(shape.capacity * shape.block), 0
            while held[at * shape.block:at * shape.block + len(MAGIC)] == MAGIC:
                block = held[at * shape.block:(at + 1) * shape.block]
                found.append(Batch(zone * shape.size + at, block))
                at += found[-1].length
    return found


def newest(batches):
    """Of each logical block that has data the address of its newest."""
    places = {}
    for batch in sorted(batches, key=lambda batch: batch.sequence):
        places.update(batch.data)
        for block in batch.trims:
            places.pop(block, None)
    return places


def records(batches):
    """Of each logical block the address of its newest record: that of its data, or of the header that trims it."""
    places = {}
    for batch in sorted(batches, key=lambda batch: batch.sequence):
        places.update(batch.data)
        places.update(dict.fromkeys(batch.trims, batch.header))
    return places


def can_be_cleaned(shape, batches, zone):
    """Whether the live records of a zone fit into an empty one, with two of its blocks left. Each Move has a header."""
    live = sum(address // shape.size == zone for address in records(batches).values())
    most = min(shape.transfer - 1, (shape.block - 32) // 8)
    return max(1, live + -(-live // most)) + 2 <= shape.capacity


def end_of_newest(batches):
    """The address after the newest batch: the next one is written there, if the zone has room."""
    last = max(batches, key=lambda batch: batch.sequence)
    return last.header + last.length
