"""The shapes of drives."""

# The most bytes that one command moves on the way to a drive, and the most blocks of a transfer.
MOST_BYTES, MOST_BLOCKS = 1 << 20, 256


class Shape:
    """The shape of a drive, and how many logical blocks are used on it."""

    def __init__(self, block, zones, size, capacity, mdts, active, most_open, blocks):
        self.block, self.zones, self.size, self.capacity = block, zones, size, capacity
        self.mdts, self.active, self.open, self.blocks = mdts, active, most_open, blocks
        self.transfer = min((4096 << mdts) // block, MOST_BYTES // block, MOST_BLOCKS)

    def for_guest(self):
        """The words for the guest's drive."""
        return self.words(["block", "zones", "size", "capacity", "mdts", "active", "open"])

    def for_memory(self):
        """The words for a drive in memory."""
        return self.words(["block", "zones", "size", "capacity", "transfer", "active", "open"])

    def words(self, names):
        """An option for each of these numbers."""
        return [word for name in names for word in (f"--{name}", str(getattr(self, name)))]

    def fresh(self):
        """What a new disk holds, as a read shows it: a text for each block."""
        return [f"00*{self.block}"] * self.blocks

    def __str__(self):
        return " ".join(self.for_guest())


# Small and nearly full, so that they are cleaned; the second one's zone size is no power of two.
SMALL = [
    Shape(4096, 12, 256, 250, 5, 5, 3, 2000),
    Shape(512, 40, 60, 60, 2, 6, 4, 1800),
    Shape(4096, 24, 64, 64, 7, 14, 14, 1000),
]
# Of drives that fail in part. They are small and nearly full, so that they are cleaned; the first one's zone size is no
# power of two.
OF_FAULTS = [
    Shape(512, 20, 30, 24, 2, 6, 4, 240),
    Shape(4096, 10, 16, 16, 7, 14, 14, 70),
]
# For jobs that hold other file systems before.
OF_JOBS = Shape(4096, 64, 4096, 4096, 7, 14, 14, 3000)
# For file systems, and for fio, which writes all of the disk. A few dozen cuts, or one round of fio, clean it.
OF_FILES = Shape(4096, 48, 256, 250, 7, 8, 6, 8000)
# For files on a drive that fails. ext4 has no journal on fewer than 2048 blocks.
OF_FILE_FAULTS = Shape(4096, 14, 256, 250, 7, 8, 6, 2060)
# Large enough for btrfs, which takes whole zones and gives them back late: 6 GiB, and a disk of 1.5 GiB.
OF_SPEED = Shape(4096, 384, 4096, 4096, 7, 14, 14, 393216)
# For a mount of many batches: room for 100,000 of them, and a transfer of 256 blocks.
OF_BATCHES = Shape(512, 64, 4096, 4096, 5, 14, 14, 110000)
# A transfer of 1 MiB.
OF_MEBIBYTES = Shape(4096, 64, 1024, 1024, 8, 14, 14, 40000)
