"""What a loss of power may leave of a file: of the writes since the last sync all, none, or parts.

A write is a pair of a place and bytes. A place below 0 stands for a change of the file's size to its opposite.
"""

import collections
import random

SECTOR = 512
# Where a drive in a file names the boot that served it last: two words.
BOOT, WORD = 64, 8
# Where it has the mark of the file while a program has it.
MARK = 80


def applied(image, writes):
    """An image after writes. A write beyond the end, or a size, changes its length."""
    for at, data in writes:
        if at < 0:
            size = -at
            image[size:] = b""
            image.extend(bytes(size - len(image)))
            continue
        if at + len(data) > len(image):
            image.extend(bytes(at + len(data) - len(image)))
        image[at : at + len(data)] = data
    return image


def left_any(writes):
    """Any of the writes, in their order."""
    share = random.choice((0.1, 0.5, 0.9))
    return [write for write in writes if random.random() < share]


def left_shuffled(writes):
    """Any of the writes, in another order."""
    left = left_any(writes)
    random.shuffle(left)
    return left


def left_torn(writes):
    """Parts of the writes: each may be torn at a byte, at both ends."""
    left = []
    for at, data in left_shuffled(writes) if random.randrange(2) else left_any(writes):
        ends = sorted(random.randrange(len(data) + 1) for _ in range(2)) if data else (0, 0)
        start, end = random.choice(((0, ends[1]), (ends[0], len(data)), ends, (0, len(data))))
        left.append((at + start, data[start:end]) if at >= 0 else (at, data))
    return left


def sectors_of(write):
    """The parts of a write in each sector."""
    at, data = write
    if at < 0:
        return [write]
    ends = [0, *range(SECTOR - at % SECTOR, len(data), SECTOR), len(data)]
    return [(at + start, data[start:end]) for start, end in zip(ends, ends[1:]) if start < end]


def left_sectors(writes):
    """Sectors of different ages: each has a first part of its writes."""
    parts = collections.defaultdict(list)
    for write in writes:
        for part in sectors_of(write):
            parts[part[0] // SECTOR if part[0] >= 0 else -1].append(part)
    return [part for ages in parts.values() for part in ages[: random.randrange(len(ages) + 1)]]


def left_other(writes):
    """Other bytes where something was written, as a premise of files allows."""
    left = []
    for at, data in left_any(writes):
        if at < 0:
            left.append((at, data))
            continue
        start = random.randrange(len(data) + 1)
        other = random.choice((random.randbytes, bytes))(len(data) - start)
        left.append((at, data[:start] + other))
    return left


WAYS = {
    "all": list,
    "none": lambda _: [],
    "the first ones": lambda writes: writes[: random.randrange(len(writes) + 1)],
    "any": left_any,
    "in another order": left_shuffled,
    "torn at bytes": left_torn,
    "sectors of different ages": left_sectors,
    "other bytes": left_other,
}
CHANCES = (1, 1, 3, 4, 4, 5, 5, 2)
# Those in which each sector is whole, and of one moment.
WHOLE = ("all", "none", "the first ones", "sectors of different ages")


class File:
    """The bytes of a file that are sure, and the writes since, while a trace is replayed."""

    # Whether a third of the syncs is taken for one that did nothing.
    forgets = False

    def __init__(self, synced, writes=()):
        self.synced, self.writes = bytearray(synced), list(writes)
        self.marks = {bytes(self.synced[MARK : MARK + WORD])}

    def follow(self, event):
        """Makes a change of a trace."""
        kind, what = event
        if kind == "write":
            self.writes.append(what)
            if what[0] == MARK:
                self.marks.add(bytes(what[1]))
        elif kind == "size":
            self.writes.append((-what, b""))
        elif kind == "sync" and not (self.forgets and random.randrange(3) == 0):
            applied(self.synced, self.writes)
            self.writes = []

    def shown(self):
        """What a read returns."""
        return applied(bytearray(self.synced), self.writes)

    def loss(self, way, boots):
        """What a loss of power leaves, with another boot in the place of the running one."""
        writes = [(at, boots.get(data, data) if at in (BOOT, BOOT + WORD) else data) for at, data in self.writes]
        return self.unmarked(applied(renamed(bytearray(self.synced), boots), WAYS[way](writes)))

    def unmarked(self, image):
        """An image without the mark of this file. So it is opened as this file is, and not as a copy."""
        if len(image) >= MARK + WORD and bytes(image[MARK : MARK + WORD]) in self.marks:
            image[MARK : MARK + WORD] = bytes(WORD)
        return image


def renamed(image, boots):
    """An image that names another boot, if it names the running one."""
    for at in (BOOT, BOOT + WORD):
        word = bytes(image[at : at + WORD])
        if word in boots:
            image[at : at + WORD] = boots[word]
    return image


def running_boot():
    """The two words of the running boot, as they stand in a file."""
    with open("/proc/sys/kernel/random/boot_id", encoding="ascii") as file:
        digits = file.read().strip().replace("-", "")
    return [bytes.fromhex(half)[::-1] for half in (digits[:16], digits[16:])]
