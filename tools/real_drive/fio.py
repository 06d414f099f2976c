"""fio writes the served drive at random, and verifies it."""

import json
import random

from file_systems import PROGRAMS
from looks import count, look
from machine import files_of, install, modules_of, read_file, script_of, write_file
from shapes import OF_FILES

MIB = 1 << 20
# How long the writes of a round are. fio takes no more than a part of a block as the unit of a range.
SIZES = ["--bs=4k", "--bsrange=4k-64k", "--bs=16k", "--bsrange=4k-256k", "--bs=128k"]
DISK = OF_FILES.blocks * 4096
# What each step of a round has to verify: its name, and how many bytes.
STEPS = {"disk": DISK, "disk-again": DISK, "file": DISK // 2, "file-again": DISK // 2}


def measures_of(text):
    """What fio measured of its one job, or nothing where it did not come so far."""
    try:
        return json.loads(text[text.index("{"):])["jobs"][0]
    except (ValueError, KeyError, IndexError):
        return {"error": "nothing was measured", "read": {"io_bytes": 0}}


def judge_step(share, name, turn):
    """Looks whether fio verified all that it had written."""
    measured = measures_of(read_file(share, f"{name}.{turn}"))
    verified = measured["read"]["io_bytes"]
    count("MiB verified by fio", verified // MIB)
    # A write may be shortened at the end.
    is_all = verified >= STEPS[name] * 99 // 100
    look(measured["error"] == 0 and is_all,
         f"round {turn}, {name}: error {measured['error']}, {verified} bytes verified of {STEPS[name]}")


def one_guest(machine, which, rounds):
    """A guest with some rounds on one drive."""
    share, chance = machine.share(), random.Random(f"{machine.seed} fio {which}")
    for turn in range(1, rounds + 1):
        sizes = SIZES[(which + 2 * (turn - 1)) % len(SIZES)]
        write_file(share, f"round.{turn}", f"{chance.randrange(1 << 31)} {sizes}\n")
    scripts = [script_of("fio.sh"), script_of("serving.sh")]
    options = ["--memory", "1536", *modules_of(["nbd", "ext4"]), *files_of(install(PROGRAMS + ["fio"]) + scripts)]
    spoil = "yes" if machine.spoils else ""
    script = f"BLOCKS={OF_FILES.blocks} SPOIL={spoil}\n. /in/fio.sh\n"
    told = machine.guest(OF_FILES, share, script, options=options, seconds=1800 + 1800 * rounds)
    for line in read_file(share, "wrong").splitlines() or [""]:
        look(not line, line)
    look(read_file(share, "boots").count("round ") == rounds, f"not all rounds were done: {told[-600:]}")
    for turn in range(1, rounds + 1):
        for name in STEPS:
            judge_step(share, name, turn)
    check = read_file(share, "check")
    look(check == "the drive can be mounted\n", f"check: {check[-200:]}")


def try_fio(machine, rounds):
    """Rounds of fio, divided among the guests."""
    install(PROGRAMS + ["fio"])
    machine.side_by_side(lambda item: one_guest(machine, *item), list(enumerate(machine.parts_of(rounds))))
