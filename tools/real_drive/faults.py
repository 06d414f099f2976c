"""Drives that fail in part: single writes, reads and flushes, and zones that wear out. Then the disk is rescued."""

import errno
import itertools
import os
import random
import re

from asked import AskedGuest
from fake_guest import FakeGuest
from looks import count, look
from machine import files_of, read_file, script_of, write_file
from mended import refuse_repair, repair, repair_nothing
from places import batches_of, can_be_cleaned, newest
from saved import DEVICE, Saved
from sessions import FLUSH, WRITE, errors_of, request, session_of
from shapes import OF_FAULTS
from traces import Line, text_of
from worn import CLOSED, EMPTY, FULL, NAMES, OFFLINE, OPENED, READ_ONLY, ZONES, make_library
from written import Written

STOPPED, FAILED, AT_END = "fault disk 3 Stopped", "fault disk 10 Failed", "fault device"
UNMOUNTED, UNREPAIRED = "fault mount 15 Failed", "fault repair 9 Failed"
MOUNTABLE = ["the drive can be mounted", "status 0"]
KINDS = "new", "flat"
# What would change a drive.
CHANGES = "format --force", "run --blocks $BLOCKS", "nbd --blocks $BLOCKS", "repair --force"
UNWORN = "unset LD_PRELOAD WORN; rm -f /tmp/worn"
# A run in which another program resets a zone between the one line and the end.
RESET_BESIDE = f"""rm -f /tmp/waiting; mkfifo /tmp/waiting
zonedisk run {DEVICE} --blocks $BLOCKS < /tmp/waiting > /share/replies 2> /share/replies.said & run=$!
exec 9> /tmp/waiting
cat /share/lines >&9
until [ -s /share/replies ] || ! kill -0 $run; do sleep 0.1; done
nvme zns reset-zone /dev/ng0n1 -s {{start}} > /dev/null
exec 9>&-
wait $run"""
SERVE = f"zonedisk nbd {DEVICE} --blocks $BLOCKS < /share/sent > /share/replies 2> /share/replies.said"
# How many writes a session has, each with a flush after it.
PAIRS = 9
OFF_AGAIN = "had its volatile write cache on again, as after a reset: it is off now"
STAYS_ON = "has its volatile write cache on again, and keeps it on: it is sent nothing more"
# In how many guests the places are tried.
GUESTS = 4
# How many runs write beside a block that cannot be read.
RUNS = 4
ESHUTDOWN = errno.ESHUTDOWN


def a_zone(disk, *states):
    """Start and pointer of a zone in one of these states, or else of an empty one, which is written next."""
    return disk.chance.choice(disk.zones_that_are(*states) or disk.zones_that_are(EMPTY)[:1])


def a_fill(disk, block=0):
    """A line that writes a block."""
    return Line(f"fill {block} 1 a5", block, [f"a5*{disk.shape.block}"])


def fail_write(disk, name):
    """A write fails once: the run stops, and what it had answered is there. Whether a write came to the place."""
    disk.begin()
    _, pointer = a_zone(disk, OPENED, CLOSED)
    disk.guest.fail("write", pointer + disk.chance.randrange(10))
    ended = disk.run(disk.lines(60))
    disk.guest.mend()
    if ended == (0, "ok"):
        count("writes that did not come to the place")
        return False
    count("failed writes")
    look(ended in ((1, STOPPED), (1, FAILED)), f"{name}: the run ended by {ended}")
    saved = Saved(disk.guest, name, disk.chance.choice(KINDS))
    saved.judge(disk)
    look(not saved.lost, f"{name}: blocks are lost: {sorted(saved.lost)}")
    look(disk.is_there(saved.blocks), f"{name}: an answered line is not rescued")
    if saved.reply == "ok":
        count("failed writes after which the drive is mounted")
        look(disk.is_there(disk.read_all()), f"{name}: a mount lost an answered line")
        look(saved.check[-2:] == MOUNTABLE, f"{name}: mounted, and check says {saved.check}")
        repair_nothing(disk, name)
    else:
        look(saved.is_refused("zone "), f"{name}: check says {saved.check}")
        look(saved.reply.startswith("fault mount 4 Log "), f"{name}: the mount says {saved.reply}")
        repair(disk, name, MOUNTABLE)
    return True


def fail_data(disk, name, once):
    """The newest data of a block cannot be read: only that is lost. Once it fails alone, it is asked for again."""
    block, address = disk.chance.choice(sorted(newest(batches_of(disk.shape, disk.guest.image)).items()))
    disk.guest.fail("read", address, once=once)
    saved = Saved(disk.guest, name, disk.chance.choice(KINDS), block)
    saved.judge(disk)
    count("unreadable data blocks")
    if not once:
        write_beside(disk, name, block)
        write_anew(disk, name, block, trims=disk.chance.random() < 0.5)
    disk.guest.mend()
    wanted = set() if once else {block}
    look((saved.lost, saved.older) == (wanted, set()), f"{name}: lost {saved.lost}, older {saved.older}, not {wanted}")
    look(saved.check[-2:] == MOUNTABLE, f"{name}: check says {saved.check}")
    look(saved.reply == ("ok" if once else FAILED), f"{name}: a run says {saved.reply}")


def write_beside(disk, name, lost):
    """Writes other blocks while the newest data of one cannot be read. The cleaner takes other zones. Each run mounts
    the disk, and a mount does not know the block."""
    others = [block for block in range(disk.shape.blocks) if block != lost]
    for _ in range(RUNS):
        lines = [a_fill(disk, disk.chance.choice(others)) for _ in range(10)]
        ended, told = write_lines(disk, name, lines, lost)
        if ended == (0, "ok") and "the drive answered a Read " in told:
            count("runs that went on after a clean was undone")


def write_anew(disk, name, block, trims):
    """Writes or trims a block whose newest data cannot be read: then all can be read again."""
    line = Line(f"trim {block} 1", block, [f"00*{disk.shape.block}"]) if trims else a_fill(disk, block)
    ended, _ = write_lines(disk, name, [line], block)
    if ended != (0, "ok"):
        return
    look(disk.is_there(disk.read_all()), f"{name}: not all blocks are there after `{line.text}`")
    count("unreadable blocks trimmed" if trims else "unreadable blocks written anew")


def write_lines(disk, name, lines, lost):
    """Runs lines that write while a block cannot be read: how the run ended, and what was told. It ends early only if
    no other zone can be cleaned."""
    address = newest(batches_of(disk.shape, disk.guest.image)).get(lost)
    ended = disk.run(lines)
    told = read_file(disk.guest.share, "replies.said")
    if ended == (1, FAILED):
        look("the drive answered a Read " in told, f"{name}: a line ended by {ended}: {told}")
        look_at_zones(disk, name, address)
    else:
        look(ended == (0, "ok"), f"{name}: {len(lines)} lines ended by {ended}: {told}")
    return ended, told


def look_at_zones(disk, name, address):
    """After a write that failed, no zone can be cleaned but the one with this address: one is empty, and all others
    have too many live records."""
    batches = batches_of(disk.shape, disk.guest.image)
    others = set(range(disk.shape.zones)) - {address // disk.shape.size}
    others = [other for other in sorted(others) if can_be_cleaned(disk.shape, batches, other)]
    look(len(others) <= 1, f"{name}: a write failed, and the zones {others} can be cleaned or are empty")
    count("drives of which no other zone can be cleaned")


def fail_header(disk, name):
    """A header cannot be read: blocks of its batch are given as they were before, and are listed."""
    batch = disk.chance.choice(batches_of(disk.shape, disk.guest.image))
    disk.guest.fail("read", batch.header, once=False)
    saved = Saved(disk.guest, name, disk.chance.choice(KINDS))
    refuse_repair(disk, name, UNREPAIRED)
    disk.guest.mend()
    saved.judge(disk)
    count("unreadable headers")
    look(not saved.lost, f"{name}: lost {sorted(saved.lost)}")
    look(saved.reply == UNMOUNTED, f"{name}: the mount says {saved.reply}")
    look(saved.has_failed(), f"{name}: check says {saved.check}")


def wear(disk, name, kind, state):
    """A zone wears out: it is partly written and refuses an Append, or it is full or empty."""
    disk.begin()
    start, _ = a_zone(disk, *ZONES[kind])
    zone, append = start // disk.shape.size, int(kind == "partly written")
    disk.guest.ask(f"export LD_PRELOAD=/in/worn.so WORN='{start} {disk.shape.size} {state} {append}'")
    ended = disk.run(disk.lines(60))
    if append and ended == (0, "ok"):
        count("zones that were not written again")
        disk.guest.ask(UNWORN)
        return
    unusable = f"fault mount 3 ZoneUnusable {zone}"
    look(ended == (1, STOPPED if append else unusable), f"{name}: the run ended by {ended}")
    saved = Saved(disk.guest, name, disk.chance.choice(KINDS))
    saved.judge(disk)
    count(f"zones that are {NAMES[state]}")
    look(saved.reply == unusable, f"{name}: the mount says {saved.reply}")
    look(saved.is_refused(f"zone {zone} is "), f"{name}: check says {saved.check}")
    look(not saved.lost, f"{name}: lost {sorted(saved.lost)}")
    if state == READ_ONLY or kind == "empty":
        look(disk.is_there(saved.blocks), f"{name}: an answered line is not rescued")
    if state == OFFLINE:
        look(len(saved.older) == disk.shape.blocks, f"{name}: only {len(saved.older)} blocks are listed")
    status, said = disk.guest.ask("zonedisk format --device /dev/ng0n1 --force")
    look(status == 1 and f"zone {zone} is Read Only or Offline" in said, f"{name}: format says {status} {said}")
    refuse_repair(disk, name, f"fault repair 2 Unusable {zone}")
    disk.guest.ask(UNWORN)


def tear_write(disk, name):
    """A write fails in its middle, and the drive counts all its blocks as written. The proofs assume that no drive does
    that: so it is only counted how often blocks are wrong that no list has."""
    disk.begin()
    _, pointer = a_zone(disk, OPENED, CLOSED)
    disk.guest.fail("write", pointer + disk.chance.randrange(1, 6), most=disk.shape.block)
    ended = disk.run(disk.lines(60))
    disk.guest.mend()
    if ended == (0, "ok"):
        count("torn writes that did not come to the place")
        return
    saved = Saved(disk.guest, name, disk.chance.choice(KINDS))
    given = enumerate(saved.blocks)
    known = saved.lost | saved.older
    wrong = [number for number, text in given if number not in known and text not in disk.may_be[number]]
    count("torn writes")
    count("torn writes that left wrong blocks, as nothing tells", bool(wrong))


def write_foreign(disk, name):
    """Another program writes a block after the batches of a zone: a repair moves them."""
    disk.begin()
    start, _ = a_zone(disk, OPENED, CLOSED)
    entry = f"zonedisk entry append --start {start} --data {disk.chance.randbytes(disk.shape.block).hex()}"
    status, _ = disk.guest.ask(f"{entry} | zonedisk nvme --device /dev/ng0n1 > /dev/null")
    look(status == 0, f"{name}: no foreign block is written")
    saved = Saved(disk.guest, name, disk.chance.choice(KINDS))
    saved.judge(disk)
    look(disk.is_there(saved.blocks), f"{name}: an answered line is not rescued")
    look(saved.reply.startswith("fault mount 4 Log "), f"{name}: the mount says {saved.reply}")
    count("foreign blocks")
    repair(disk, name, MOUNTABLE)


def reset_zone(disk, name):
    """Another program resets a zone while a run has the drive. The run has to name it at its end."""
    disk.begin()
    start, pointer = a_zone(disk, OPENED, CLOSED)
    if start == pointer:
        count("resets that found no zone")
        return
    write_file(disk.guest.share, "lines", text_of([a_fill(disk)]))
    status, _ = disk.guest.ask(RESET_BESIDE.format(start=start))
    said, replies = (read_file(disk.guest.share, file) for file in ("replies.said", "replies"))
    zone = start // disk.shape.size
    count("resets by another program")
    look((status, replies.splitlines()[-1:]) == (1, [AT_END]), f"{name}: the run ended by {status} {replies[-80:]}")
    look(f"the drive shows zone {zone} with 0 written blocks" in said, f"{name}: it is told {said}")


def lose_append(disk, name):
    """An Append is answered and not done. The run has to name its zone, at the next Append to it or at the end. Only if
    the zone was finished since, nothing shows it any more."""
    disk.begin()
    parts = disk.zones_that_are(OPENED, CLOSED)
    disk.guest.fail("lost")
    ended = disk.run([a_fill(disk), *disk.lines(disk.chance.choice([0, 0, 3]))])
    disk.guest.mend()
    said = read_file(disk.guest.share, "replies.said")
    count(f"lost writes that ended a run by {ended[1]}")
    if ended == (0, "ok"):
        full = {start for start, _ in disk.zones_that_are(FULL)}
        look(any(start in full for start, _ in parts), f"{name}: no zone was finished, and the run ended by {ended}")
        return
    look(ended in ((1, STOPPED), (1, AT_END)), f"{name}: the run ended by {ended}")
    look(re.search(r"zone \d+ .*as it should", said), f"{name}: it is told {said}")


def protect(disk, name):
    """The drive is write protected: what would change it is refused at the start, and what only reads goes on."""
    disk.begin()
    disk.guest.fail("protected", once=False)
    write_file(disk.guest.share, "lines", text_of([a_fill(disk)]))
    for words in CHANGES:
        status, said = disk.guest.ask(f"zonedisk {words} {DEVICE} < /share/lines")
        look(status == 1 and "the namespace is write protected" in said, f"{name}: {words} says {status} {said}")
        count("changes of a write-protected drive refused")
    saved = Saved(disk.guest, name, disk.chance.choice(KINDS))
    saved.judge(disk)
    look(not saved.lost and not saved.older, f"{name}: listed {len(saved.lost)} and {len(saved.older)}")
    look(saved.reply == AT_END, f"{name}: a run says {saved.reply}")
    look(saved.check[-2:] == MOUNTABLE, f"{name}: check says {saved.check}")
    look_at_export(disk, name)
    disk.guest.mend()
    look_at_all(disk, name)


def serve(disk, number):
    """Serves the disk to a client that fills so many blocks, with a flush after each: the status, and the error of each
    reply."""
    size, requests = disk.shape.block, []
    fills = [a_fill(disk, disk.chance.randrange(disk.shape.blocks)) for _ in range(number)]
    for fill in fills:
        requests += [request(WRITE, 0, fill.first * size, b"\xa5" * size), request(FLUSH, 0)]
    write_file(disk.guest.share, "sent", session_of(requests).decode("latin-1"))
    status, _ = disk.guest.ask(SERVE)
    errors = errors_of(read_file(disk.guest.share, "replies").encode("latin-1"))
    for fill, error in zip(fills, errors[::2]):
        disk.write(fill, is_done=error == 0)
    return status, errors


def wake_cache(disk, name):
    """The volatile write cache is on again at one Flush or at each, as after a reset of the controller. It is switched
    off, which is told once, and the run or the session goes on."""
    for serves in False, True:
        disk.begin()
        disk.guest.fail("cache", once=disk.chance.random() < 0.5)
        ended = serve(disk, PAIRS) if serves else disk.run(disk.lines(30))
        disk.guest.mend()
        said = read_file(disk.guest.share, "replies.said")
        count("caches that were on again, and were switched off")
        look(ended == ((0, [0] * 2 * PAIRS) if serves else (0, "ok")), f"{name}: it ended by {ended}")
        look(said.count(OFF_AGAIN) == 1, f"{name}: it is told {said}")
        look_at_all(disk, name)


def is_cut(ended, flush):
    """Whether a session ended at a Flush with this number: from there on each request is refused. Before a Reset there
    is a Flush, too, and one before the client is greeted. If that fails, nothing is answered."""
    status, errors = ended
    done = errors.count(0)
    return status == 1 and (not errors or done < 2 * flush and errors == [0] * done + [ESHUTDOWN] * (2 * PAIRS - done))


def keep_cache(disk, name):
    """The same at one Flush, and the cache stays on. The run or the session ends by name, and what was answered is
    there."""
    for serves in False, True:
        disk.begin()
        flush = disk.chance.randrange(PAIRS) if serves else None
        disk.guest.fail("kept", flush)
        ended = serve(disk, PAIRS) if serves else disk.run(disk.lines(30))
        disk.guest.mend()
        said = read_file(disk.guest.share, "replies.said")
        count("caches that were on again, and stayed on")
        if serves:
            look(is_cut(ended, flush), f"{name}: at Flush {flush} the session ended by {ended}")
        else:
            look(ended in ((1, STOPPED), (1, AT_END)), f"{name}: the run ended by {ended}")
        look(said.count(STAYS_ON) == 1, f"{name}: it is told {said}")
        look_at_all(disk, name)


def look_at_export(disk, name):
    """A write-protected drive is exported, unless a mount has to change it: then the drive refuses that."""
    status, said = disk.guest.ask(f"zonedisk export {DEVICE} > /share/array")
    if is_changed_by_mount(disk):
        look(status == 1 and "Namespace is Write Protected" in said, f"{name}: an export says {status} {said}")
        count("write-protected drives that a mount would change")
        return
    look(status == 0 and disk.is_there(disk.read_all()), f"{name}: an export says {status} {said}")
    count("exports of a write-protected drive")


def is_changed_by_mount(disk):
    """Whether a mount resets a zone, moves batches, or finishes a zone that has one block left."""
    _, mount = disk.guest.ask(f"zonedisk info {DEVICE} | grep '^mount '")
    last = disk.shape.capacity - 1
    parts = disk.zones_that_are(OPENED, CLOSED)
    return mount != "mount resets 0\nmount moves 0\n" or any(at - start == last for start, at in parts)


def fail_answer(disk, name):
    """A write is done, but the drive cannot bring it to its medium. The run stops, and nothing is missing."""
    disk.begin()
    disk.guest.fail("flush")
    ended = disk.run(disk.lines(30))
    disk.guest.mend()
    count("writes that were done and failed")
    look(ended == (1, STOPPED), f"{name}: the run ended by {ended}")
    look_at_all(disk, name)


def fail_flush(disk, name):
    """Flushes fail: the run says so at its end, or it stops before a Reset. All that it answered is there."""
    disk.begin()
    disk.guest.ask("touch /tmp/unflushed; export LD_PRELOAD=/in/worn.so")
    ended = disk.run(disk.lines(disk.chance.choice([3, 40])))
    disk.guest.ask("unset LD_PRELOAD; rm /tmp/unflushed")
    count(f"failed flushes that ended a run by {ended[1]}")
    look(ended in ((1, STOPPED), (1, AT_END)), f"{name}: the run ended by {ended}")
    look_at_all(disk, name)


def look_at_all(disk, name):
    """Looks whether a rescue, a mount and `check` find nothing wrong."""
    saved = Saved(disk.guest, name, disk.chance.choice(KINDS))
    saved.judge(disk)
    look(not saved.lost and not saved.older, f"{name}: listed {len(saved.lost)} and {len(saved.older)}")
    look(disk.is_there(disk.read_all()), f"{name}: an answered line is lost: {saved.reply}")
    look(saved.check[-2:] == MOUNTABLE, f"{name}: check says {saved.check}")


def try_places(disk, places):
    """Writes that fail, and then data and headers that cannot be read, each at so many places. If no write comes to a
    place, another one is taken."""
    shape = disk.shape
    for turn in range(places):
        any(fail_write(disk, f"{shape}: write {turn}") for _ in range(9))
    disk.begin()
    for turn in range(places):
        fail_data(disk, f"{shape}: data {turn}", once=turn % 6 == 5)
        fail_header(disk, f"{shape}: header {turn}")


def try_zones(disk):
    """Zones that wear out, and Flushes that fail."""
    for state, kind in itertools.product(NAMES, ZONES):
        wear(disk, f"{disk.shape}: a zone that is {kind} and {NAMES[state]}", kind, state)
    kinds = [fail_flush, fail_answer, tear_write, write_foreign, reset_zone]
    kinds += [lose_append, protect, wake_cache, keep_cache] * disk.guest.loses
    for fault in kinds * 3:
        fault(disk, f"{disk.shape}: {fault.__name__}")


def one_guest(machine, library, which, job, *words):
    """Some faults of drives in one guest. Every second one has drives of the second shape."""
    files = files_of([library, script_of("asked.sh"), script_of("serving.sh")])
    shape = OF_FAULTS[which % 2]
    with FakeGuest(machine, shape) if machine.fakes else AskedGuest(machine, shape, files) as guest:
        job(Written(guest, random.Random(f"{machine.seed} faults {which}")), *words)


def try_faults(machine, number):
    """Faults on drives of two shapes."""
    library = make_library(machine)
    shares = [number // GUESTS + (share < number % GUESTS) for share in range(GUESTS)]
    jobs = [(one_guest, library, which, try_places, places) for which, places in enumerate(shares) if places]
    jobs += [(one_guest, library, GUESTS + which, try_zones) for which in range(len(OF_FAULTS))]
    machine.side_by_side(lambda item: item[0](machine, *item[1:]), jobs)
