"""Drives that failed in part, and are repaired in place. All that was answered has to be there afterwards."""

import re

from looks import count, look
from machine import read_file
from saved import DEVICE
from written import SEE_ZONES

# First without --force, which changes no zone.
REPAIR = f"""{SEE_ZONES} > /tmp/before
zonedisk repair {DEVICE} > /share/found 2> /dev/null; echo "status $?" >> /share/found
{SEE_ZONES} | cmp - /tmp/before || echo "a repair without --force changed the zones"
zonedisk repair {DEVICE} --force > /share/repaired 2> /share/repaired.said; echo "status $?" >> /share/repaired
{SEE_ZONES} | cmp -s - /tmp/before && echo same > /share/zones || echo changed > /share/zones"""
TAIL = re.compile(r"zone \d+: (\d+ blocks? of batches, then|no batch, and) something foreign")
MENDED = re.compile(r".*: zone (\d+): (.*)")


class Repaired:
    """What a repair finds on the drive of a guest, what it does, and what it says."""

    def __init__(self, guest, name):
        _, text = guest.ask(REPAIR)
        look(not text, f"{name}: {text[-300:]}")
        self.found, self.ended, said, zones = (read_file(guest.share, file).splitlines()
                                               for file in ("found", "repaired", "repaired.said", "zones"))
        self.done = [found.group(2) for found in map(MENDED.fullmatch, said) if found]
        self.changed = zones == ["changed"]


def repair(disk, name, mountable):
    """Repairs a drive that a mount refuses. All that was answered has to be there, and the disk has to be of use."""
    repaired = Repaired(disk.guest, name)
    tails = [line for line in repaired.found if TAIL.fullmatch(line)]
    look(len(tails) == 1 and repaired.found == [*tails, "status 1"], f"{name}: a repair would do {repaired.found}")
    look(repaired.ended == mountable, f"{name}: a repair ended by {repaired.ended}")
    look(len(repaired.done) == 1, f"{name}: a repair says {repaired.done}")
    for done in repaired.done:
        count(f"repairs: {re.sub('[0-9]+', 'N', done)}")
    look(disk.is_there(disk.read_all()), f"{name}: an answered line is not there after a repair")
    ended = disk.run(disk.lines(20))
    look(ended == (0, "ok"), f"{name}: a run on the repaired drive ended by {ended}")
    look(disk.is_there(disk.read_all()), f"{name}: an answered line is not there on the repaired drive")


def repair_nothing(disk, name):
    """A repair of a drive that a mount takes does nothing."""
    repaired = Repaired(disk.guest, name)
    look(repaired.found == ["nothing to repair", "status 0"], f"{name}: a repair would do {repaired.found}")
    look(not repaired.changed and not repaired.done, f"{name}: a repair did {repaired.done}")
    count("drives with nothing to repair")


def refuse_repair(disk, name, fault):
    """A repair is refused by this line, and changes no zone."""
    repaired = Repaired(disk.guest, name)
    for lines in repaired.found, repaired.ended:
        look(lines == [fault, "status 1"], f"{name}: a repair says {lines}, and not {fault}")
    look(not repaired.changed and not repaired.done, f"{name}: a refused repair did {repaired.done}")
    count("repairs that were refused")
