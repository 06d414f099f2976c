"""How many commands are sent to a drive. `counts.c` counts them, between the program and the drive."""

import os
import random
import subprocess

from file_systems import PROGRAMS
from looks import count, look
from machine import files_of, install, modules_of, read_file, script_of, write_file
from shapes import OF_BATCHES, OF_MEBIBYTES

READ, APPEND = "02", "7d"
# How many blocks are read in any order, how many MiB in theirs, and how many commands a MiB may take.
ASKED, MIB, MOST = 1000, 16, 3


def make_library(machine):
    """Compiles what counts."""
    library = os.path.join(machine.work, "counts.so")
    words = [os.environ.get("CC", "cc"), "-shared", "-fPIC", "-O1", "-o", library, script_of("counts.c")]
    subprocess.run(words, check=True)
    return library


def counted(share, name, opcode):
    """How many commands of an opcode a run sent, and how many bytes they moved."""
    for line in read_file(share, name).splitlines():
        code, number, length = line.split()
        if code == opcode:
            return int(number), int(length)
    return 0, 0


def run_guest(machine, shape, share, part, seconds):
    """A guest with the runs of a part."""
    scripts = [script_of("counts.sh"), script_of("serving.sh")]
    options = [*modules_of(["nbd"]), *files_of(install(PROGRAMS) + scripts + [make_library(machine)])]
    script = f"BLOCKS={shape.blocks} PART={part} MIB={MIB}\n. /in/counts.sh\n"
    machine.guest(shape, share, script, options=options, seconds=seconds)


def count_mount(machine, batches):
    """A mount of so many batches of one block each, and then reads of single blocks in any order."""
    shape, share = OF_BATCHES, machine.share()
    chance = random.Random(f"{machine.seed} counts")
    write_file(share, "lines", "".join(f"fill {block} 1 {block % 255 + 1:02x}\n" for block in range(batches)))
    write_file(share, "asked", "".join(f"read {chance.randrange(batches)} 1\n" for _ in range(ASKED)))
    run_guest(machine, shape, share, "lines", 1200 + batches // 20)
    written, _ = counted(share, "filled", APPEND)
    mounted, _ = counted(share, "mounted", READ)
    asked, _ = counted(share, "asked", READ)
    count("batches written", written)
    count("Reads of their mount", mounted)
    count(f"Reads of {ASKED} random blocks", asked - mounted)
    # Each batch is an Append at least, and its header has to be read.
    look(written >= batches and mounted > 0, f"{written} Appends of {batches} batches, {mounted} Reads of the mount")
    look(mounted * 20 <= batches, f"a mount of {batches} batches takes {mounted} Reads")
    look(0 < asked - mounted <= ASKED, f"{ASKED} random reads take {asked - mounted} Reads")


def count_mebibytes(machine):
    """Reads of 1 MiB by the kernel's nbd, of what was written by as long writes."""
    shape, share = OF_MEBIBYTES, machine.share()
    run_guest(machine, shape, share, "nbd", 1800)
    served, _ = counted(share, "served", READ)
    read, moved = counted(share, "read", READ)
    count(f"Reads of {MIB} MiB", read - served)
    look(moved >= MIB << 20, f"only {moved} bytes were read")
    look(0 < read - served <= MOST * MIB, f"{MIB} MiB take {read - served} Reads")


def try_counts(machine, batches):
    """Mounts and reads."""
    jobs = [lambda: count_mount(machine, batches), lambda: count_mebibytes(machine)]
    machine.side_by_side(lambda job: job(), jobs)
