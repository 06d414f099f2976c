"""How fast file systems are, on one drive of the same shape: above zonedisk, and those that know zones themselves.

dm-zoned is not among them. Linux has it, but Debian has no package of `dmzadm`, which makes its format.
"""

import statistics

from fio import measures_of
from file_systems import PROGRAMS
from looks import count, look
from machine import files_of, install, modules_of, read_file, script_of
from shapes import OF_SPEED

# Each subject, what it is called, and how many MiB the namespace without zones has. f2fs keeps there what it writes in
# place. The less room is there, the less data go there.
SUBJECTS = {
    "zonedisk": ("ext4 on zonedisk", 16),
    "btrfs": ("btrfs on the zones", 16),
    "f2fs": ("f2fs on the zones", 128),
    "ordinary": ("ext4 on a drive without zones", OF_SPEED.blocks // 256),
}
# Each measure, what it is called, and the side of fio's report that counts.
MEASURES = {
    "write": ("writes of 1 MiB", "write"),
    "read": ("reads of 1 MiB", "read"),
    "random-write": ("4 KiB writes, each with fsync", "write"),
    "random-read": ("4 KiB reads", "read"),
}
# How long the file is, and how long the random commands last.
FILE_MIB, SECONDS = 256, 20


def measure(machine, subject, turn):
    """The speeds of one subject, in MB/s, by the names of the measures."""
    share = machine.share()
    makers = install([*PROGRAMS, "fio", "mkfs.btrfs", "mkfs.f2fs"])
    options = ["--memory", "1536", "--ordinary", str(SUBJECTS[subject][1]),
               *modules_of(["nbd", "ext4", "btrfs", "f2fs"]),
               *files_of([*makers, script_of("speeds.sh"), script_of("serving.sh")])]
    words = {"BLOCKS": OF_SPEED.blocks, "SUBJECT": subject, "MIB": FILE_MIB, "SECONDS_EACH": SECONDS,
             "SEED": (machine.seed + turn) % (1 << 31)}
    script = "".join(f"{name}={word}\n" for name, word in words.items()) + ". /in/speeds.sh\n"
    told = machine.guest(OF_SPEED, share, script, options=options, seconds=7200)
    speeds = {}
    for name, (_, side) in MEASURES.items():
        measured = measures_of(read_file(share, name)).get(side, {})
        speeds[name] = measured.get("bw_bytes", 0) / 1e6
        count("measures")
        look(speeds[name] > 0, f"{subject}, {name}: nothing was measured: {told[-300:]}")
    speeds["written"] = [int(word) for word in read_file(share, "written").split()] or [0, 0]
    return speeds


def row(cells):
    """A line of the table."""
    first, *others = cells
    return f"{first:32}" + "".join(f"{cell:>31}" for cell in others)


def show(found):
    """Prints the table: the median of the rounds."""
    print("MB/s in a guest. It is emulated, so these figures compare only with each other:")
    print(row(["", *(name for name, _ in MEASURES.values())]))
    for subject, rounds in found.items():
        medians = [statistics.median(speeds[name] for speeds in rounds) for name in MEASURES]
        print(row([SUBJECTS[subject][0], *(f"{median:.2f}" for median in medians)]))
    zoned, other = found["f2fs"][-1]["written"]
    print(f"f2fs wrote {zoned / 1e6:.0f} MB to the zones, and {other / 1e6:.0f} MB to the drive without zones")


def try_beside(machine, rounds):
    """Measures each subject, one guest at a time."""
    found = {subject: [] for subject in SUBJECTS}
    for turn in range(rounds):
        for subject, speeds in found.items():
            speeds.append(measure(machine, subject, turn))
    show(found)
