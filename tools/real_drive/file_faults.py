"""ext4 on the served drive, which fails in part. What was synced and can be read has to be there after a rescue."""

import json
import random
import re

from asked import AskedGuest
from fake_guest import FakeGuest
from file_systems import PROGRAMS
from looks import count, look
from machine import files_of, install, modules_of, read_file, script_of
from mended import Repaired, refuse_repair
from places import batches_of, end_of_newest, newest
from saved import DEVICE, listed
from shapes import OF_FILE_FAULTS
from worn import NAMES, OFFLINE, ZONES, make_library
from written import SEE_ZONES, zones_that_are

RESCUE = """rm -f /tmp/new /tmp/lists
zonedisk rescue --device /dev/ng0n1 --to /tmp/new --json /tmp/lists 2> /share/said; echo $? > /share/rescued
cp /tmp/lists /share/lists"""
RESCUED = "--image /tmp/new"
UNWORN = "unset WORN; rm -f /tmp/worn"
MOUNTABLE = ["the drive can be mounted", "status 0"]
# The kinds of worn zones.
WORN = [(kind, state) for state in NAMES for kind in ZONES]
# How many places are taken until a fault comes to one.
MOST = 9
# What a machine needs that has no guests.
FAKE_PROGRAMS = ["socat", "mkfs.ext4", "e2fsck", "losetup", "nbdfuse", "fusermount3"]
# A line of a file, and what no block is that has one.
LINE, NO_FILE = re.compile(rb"\n(\d+)\.\d+\n"), ""


class Files:
    """Files on a drive that fails."""

    def __init__(self, guest, chance, name):
        self.guest, self.chance, self.name = guest, chance, name

    def batches(self):
        """The batches on the drive."""
        return batches_of(self.guest.shape, self.guest.image)

    def blocks(self):
        """What the batches on the drive spell: of each block of the disk its bytes."""
        size, places = self.guest.shape.block, newest(self.batches())
        blocks = [bytes(size)] * self.guest.shape.blocks
        with open(self.guest.image, "rb") as image:
            for block, address in places.items():
                image.seek(address * size)
                blocks[block] = image.read(size)
        return blocks

    def begin(self):
        """Synced files on a new file system of a new drive."""
        status, said = self.guest.ask("begin")
        return look(status == 0, f"{self.name}: no files are written: {said}")

    def serve_again(self):
        """Serves the disk of the drive once more."""
        status, said = self.guest.ask("again")
        look(status == 0, f"{self.name}: the disk is not served again: {said}")

    def write_more(self):
        """Writes and syncs more files until that fails. Whether it did."""
        return self.guest.ask("write_more")[0] != 0

    def end(self, command=None, stops=True):
        """Ends the session. If a command failed, the server has to say which. A failed Read stops no drive, but a failed
        write does: then the server has to say that, too."""
        self.guest.ask("abandon")
        status, said = read_file(self.guest.share, "ended_by").strip(), read_file(self.guest.share, "served")
        is_told = command is None or re.search(rf"the drive answered {command}", said)
        has_stopped = command is not None and stops
        is_right = is_told and status == str(int(has_stopped)) and ("stopped" in said) == has_stopped
        look(is_right, f"{self.name}: the server ended by {status}: {said}")

    def is_refused(self, why):
        """A start has to be refused, by this name."""
        self.guest.ask("start_refused")
        status, said = read_file(self.guest.share, "ended_by").strip(), read_file(self.guest.share, "served")
        look(status == "1" and why in said, f"{self.name}: a start ended by {status}: {said}")

    def check(self, *wanted):
        """Looks whether `check` says one of these."""
        _, said = self.guest.ask(f"zonedisk check {DEVICE} 2>&1")
        look(any(words in said for words in wanted), f"{self.name}: check says {said}")

    def rescue(self):
        """Rescues the disk to a new drive: the lost blocks, and those that may be older."""
        self.guest.ask(RESCUE)
        lists = json.loads(read_file(self.guest.share, "lists") or "{}")
        lost, older = (listed(lists.get(name, [])) for name in ("lost", "older"))
        status = read_file(self.guest.share, "rescued").strip()
        look(status == ("1" if lost or older else "0"), f"{self.name}: the rescue ended by {status}")
        return lost, older

    def look_at_blocks(self, wanted, drive=RESCUED, hidden=()):
        """Looks whether a disk has all blocks byte for byte, but for the hidden ones."""
        self.guest.ask(f"zonedisk export {drive} > /share/array")
        given, size = self.guest.given("array"), self.guest.shape.block
        wrong = [block for block, data in enumerate(wanted)
                 if data != given[block * size:(block + 1) * size] and block not in hidden]
        look(not wrong and len(given) == size * len(wanted), f"{self.name}: {drive}: other blocks are {wrong}")
        count("blocks looked at under ext4", len(wanted) - len(hidden))

    def look_for_files(self, gone=(), drive=RESCUED):
        """Looks for the synced files on a disk, once the journal is replayed: just these may not be as they were."""
        status, said = self.guest.ask(f"MENDS=; look_at {drive}")
        fsck = read_file(self.guest.share, "fsck")[-300:]
        look(status == 0, f"{self.name}: {drive}: the files are not looked at, {status}: {said} {fsck}")
        found = set(read_file(self.guest.share, "gone").split())
        look(found == set(gone), f"{self.name}: {drive}: files {sorted(found)} are gone, and not {sorted(gone)}")
        count("synced files looked for", self.synced() - len(gone))

    def synced(self):
        """How many files were synced."""
        return len(read_file(self.guest.share, "synced").split())

    def mend_files(self):
        """Blocks of ext4 itself are older on the rescued disk: e2fsck has to mend them. Files may be gone then."""
        status, _ = self.guest.ask(f"MENDS=yes; look_at {RESCUED}")
        count(f"file systems that e2fsck {'could not mend' if status else 'mended'}")
        if not status:
            gone = len(read_file(self.guest.share, "gone").split())
            count("files that were there once e2fsck had mended", self.synced() - gone)
            count("files that were gone once e2fsck had mended", gone)

    def judge(self, wanted, hidden):
        """Looks at the rescued disk, whose hidden blocks are older."""
        self.look_at_blocks(wanted, hidden=hidden)
        held = {file_of(wanted[block]) for block in hidden}
        if NO_FILE in held:
            self.mend_files()
        else:
            self.look_for_files(held)


def file_of(data):
    """The number of the file whose lines a block has, or that it has none."""
    found = LINE.search(data)
    return found.group(1).decode() if found else NO_FILE


def fail_write(files):
    """A write fails once, while files are written. Then the disk is rescued, and the drive is repaired. Whether a write
    came to the place."""
    shape, at = files.guest.shape, end_of_newest(files.batches()) + files.chance.randrange(100)
    files.guest.fail("write", min(at, at // shape.size * shape.size + shape.capacity - 1))
    failed = files.write_more()
    files.end("an Append .*Write Fault" if failed else None)
    files.guest.mend()
    count("failed writes under ext4" if failed else "writes under ext4 that did not come to the place")
    if not failed:
        return False
    files.check("refused: zone ", MOUNTABLE[0])
    wanted, (lost, _) = files.blocks(), files.rescue()
    look(not lost, f"{files.name}: blocks {lost} are lost")
    files.judge(wanted, set())
    repaired = Repaired(files.guest, files.name)
    has_nothing = repaired.found == ["nothing to repair", "status 0"]
    look(len(repaired.done) == (not has_nothing), f"{files.name}: a repair of {repaired.found} did {repaired.done}")
    look(has_nothing or repaired.ended == MOUNTABLE, f"{files.name}: a repair ended by {repaired.ended}")
    count("drives under ext4 with nothing to repair" if has_nothing else "repaired drives under ext4")
    files.look_at_blocks(wanted, DEVICE)
    files.look_for_files(drive=DEVICE)
    return True


def fail_data(files):
    """A block of a file cannot be read. The disk is rescued, and then that block is written anew."""
    wanted, places = files.blocks(), newest(files.batches())
    whole = [block for block in sorted(places) if file_of(wanted[block]) != NO_FILE and wanted[block][-1]]
    block = files.chance.choice(whole)
    number = file_of(wanted[block])
    files.guest.fail("read", places[block], once=False)
    look(files.guest.ask("read_all")[0] != 0, f"{files.name}: all files can be read")
    status, said = files.guest.ask("write 21")
    look(status == 0, f"{files.name}: nothing can be written any more: {said}")
    files.end("a Read .*Unrecovered Read Error", stops=False)
    count("unreadable data blocks under ext4")
    found = files.rescue()
    look(found == ({block}, set()), f"{files.name}: lost and older are {found}, and not {block}")
    files.judge(files.blocks(), {block})
    files.serve_again()
    status, said = files.guest.ask(f"write_over {number}")
    look(status == 0, f"{files.name}: file {number} cannot be written anew: {said}")
    files.end()
    files.look_for_files(drive=DEVICE)
    count("unreadable data blocks under ext4 that were written anew")
    files.guest.mend()
    return True


def fail_header(files):
    """A header cannot be read, every second time of a batch with a file. Half of the sessions were killed before."""
    if files.chance.random() < 0.5:
        files.guest.ask("kill_session")
    else:
        files.end()
    wanted, batches = files.blocks(), files.batches()
    places = newest(batches)
    hidden_by = {batch: {block for block, at in batch.data.items() if places.get(block) == at} for batch in batches}
    with_files = [batch for batch, hidden in hidden_by.items()
                  if hidden and NO_FILE not in {file_of(wanted[block]) for block in hidden}]
    batch = files.chance.choice(files.chance.choice([batches, with_files]))
    files.guest.fail("read", batch.header, once=False)
    files.is_refused("Unrecovered Read Error")
    files.check("the drive failed at a command")
    refuse_repair(files, files.name, "fault repair 9 Failed")
    lost, older = files.rescue()
    files.guest.mend()
    count("unreadable headers under ext4")
    look(not lost and older >= hidden_by[batch], f"{files.name}: lost are {lost}, and older {older}")
    files.judge(wanted, hidden_by[batch])
    return True


def fail_flush(files):
    """A Flush fails, while files are written."""
    files.guest.ask("touch /tmp/unflushed")
    look(files.write_more(), f"{files.name}: all files could be written")
    files.end("a Flush .*Write Fault")
    files.guest.ask("rm /tmp/unflushed")
    count("failed Flushes under ext4")
    files.check(MOUNTABLE[0])
    wanted, found = files.blocks(), files.rescue()
    look(found == (set(), set()), f"{files.name}: lost and older are {found}")
    files.judge(wanted, set())
    files.look_for_files(drive=DEVICE)
    return True


def wear(files, kind, state):
    """A zone wears out: it is partly written and refuses an Append, or it is full or empty. Whether that came."""
    files.end()
    files.guest.ask(f"{SEE_ZONES} > /share/report")
    start, _ = files.chance.choice(zones_that_are(files.guest, *ZONES[kind]))
    size, at = files.guest.shape.size, files.chance.randrange(1, 10) if kind == "partly written" else 0
    zone = start // size
    files.guest.ask(f"export WORN='{start} {size} {state} {at}'")
    if at and not wear_while_written(files):
        return False
    files.is_refused(f"zone {zone} is Read Only or Offline")
    count(f"zones under ext4 that are {NAMES[state]}")
    files.check(f"refused: zone {zone} is ")
    refuse_repair(files, files.name, f"fault repair 2 Unusable {zone}")
    wanted, places, (lost, older) = files.blocks(), newest(files.batches()), files.rescue()
    hidden = {block for block, place in places.items() if state == OFFLINE and place // size == zone}
    look(not lost and older >= hidden, f"{files.name}: lost are {lost}, and older {older}")
    files.guest.ask(UNWORN)
    files.judge(wanted, hidden)
    return True


def wear_while_written(files):
    """Serves the disk again, and writes to it until the zone wears out: a mount, and files. Whether it did."""
    is_worn = files.guest.ask("again && write_more")[0] != 0
    files.end("an Append " if is_worn else None)
    if not is_worn:
        count("zones under ext4 that were not written again")
        files.guest.ask(UNWORN)
    return is_worn


def faults_of(turn):
    """The faults of a turn, with their words. Of three turns one has a Flush that fails, and the others worn zones."""
    kind, state = WORN[(turn // 3 * 2 + turn % 3 - 1) % len(WORN)]
    last = (wear, kind, state) if turn % 3 else (fail_flush,)
    return [(fail_write,), (fail_data,), (fail_header,), last]


def guest_of(machine, turns):
    """A guest with a drive that can fail, and what it needs to serve the disk."""
    if machine.fakes:
        return FakeGuest(machine, OF_FILE_FAULTS, ["faulty.sh"])
    scripts = [script_of(name) for name in ("asked.sh", "serving.sh", "faulty.sh")]
    options = [*modules_of(["nbd", "ext4"]), *files_of([*install(PROGRAMS), *scripts, make_library(machine)])]
    return AskedGuest(machine, OF_FILE_FAULTS, options, seconds=300 + 1800 * len(turns))


def some_turns(machine, turns):
    """Some turns in a guest. Each fault is one of a new drive with a new file system. It says whether it came to its
    place: if not, another one is taken."""
    with guest_of(machine, turns) as guest:
        guest.ask(". /in/faulty.sh; export LD_PRELOAD=/in/worn.so")
        for turn in turns:
            for fault, *words in faults_of(turn):
                name = " ".join(["ext4, turn", str(turn), fault.__name__, *map(str, words)])
                files = Files(guest, random.Random(f"{machine.seed} {name}"), name)
                any(files.begin() and fault(files, *words) for _ in range(MOST))


def try_files(machine, number):
    """Faults under a file system, a number of turns."""
    install(FAKE_PROGRAMS if machine.fakes else PROGRAMS)
    shares = min(machine.guests, number)
    turns = [list(range(number))[share::shares] for share in range(shares)]
    machine.side_by_side(lambda some: some_turns(machine, some), turns)
