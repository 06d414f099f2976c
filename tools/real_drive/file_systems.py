"""ext4 on the served drive, whose host loses its power, or whose program is killed. On it are files, or databases."""

import glob
import os
import random
import socket
import subprocess
import time

from looks import count, look
from machine import files_of, install, modules_of, read_file, script_of, write_file
from shapes import OF_FILES

PROGRAMS = ["nbd-client", "socat", "mkfs.ext4", "e2fsck"]
# What is written: the script, the programs that it takes, and what one of its steps is called.
FILES = "files", [], "files synced"
TRANSACTIONS = "transactions", ["sqlite3"], "transactions committed"


def steps_done(share):
    """How many steps were synced so far."""
    names = glob.glob(os.path.join(share, "done.*"))
    return sum(read_file(share, os.path.basename(name)).count("\n") for name in names)


def script(machine, name, work, cuts=0):
    """The script of a guest."""
    spoil = "yes" if machine.spoils else ""
    return f"BLOCKS={OF_FILES.blocks} WORK={work} CUTS={cuts} SPOIL={spoil}\n. /in/{name}\n"


def options_of(work, programs, name):
    """The words for what a guest has."""
    scripts = [script_of(file) for file in (name, "serving.sh", f"{work}.sh")]
    return [*modules_of(["nbd", "ext4"]), *files_of(install(PROGRAMS + programs) + scripts)]


def judge(share, told, steps, starts):
    """Looks at what the guest found."""
    for line in read_file(share, "wrong").splitlines() or [""]:
        look(not line, line)
    boots = read_file(share, "boots")
    look(f"looked {starts}\n" in boots, f"not all {starts} starts were looked at: {told[-600:]}")
    count("e2fsck without a fault", boots.count("e2fsck "))
    count(steps, steps_done(share))
    judge_found(share, told)
    check = read_file(share, "check")
    look(check == "the drive can be mounted\n", f"check: {check[-200:]}")


def judge_found(share, told):
    """Looks whether all that was synced was looked for."""
    found = [line.split() for line in read_file(share, "found").splitlines()]
    count("times that one was looked for", len(found))
    done = {name.rpartition(".")[2]: read_file(share, os.path.basename(name)).split()
            for name in glob.glob(os.path.join(share, "done.*"))}
    look(done, f"nothing was synced: {told[-600:]}")
    for name, numbers in done.items():
        if name == "files":
            look({number for number, in found} >= set(numbers), "not each synced file was looked for")
        else:
            last = [words[1] for words in found if words[0] == name][-1:]
            look(last == numbers[-1:], f"{name}: transaction {numbers[-1:]} was committed, and {last} looked for")


# ---- the host loses its power


def await_cut(process, share, boot, chance):
    """Waits for the random moment of a cut: after some steps of this boot, or at any moment of a start."""
    in_start, deadline = chance.random() < 0.3, time.monotonic() + 900
    steps = steps_done(share) + chance.randrange(5, 60)
    while process.poll() is None and time.monotonic() < deadline:
        if f"boot {boot}\n" in read_file(share, "boots"):
            if in_start or steps_done(share) >= steps:
                break
        time.sleep(0.05)
    time.sleep(chance.random() * (6 if in_start else 0.5))


def cut_again_and_again(process, monitor, share, cuts, chance):
    """Cuts the power of a guest that runs, and waits for its end. A monitor may lose the last words of a client."""
    with socket.socket(socket.AF_UNIX) as link:
        for boot in range(1, cuts + 1):
            await_cut(process, share, boot, chance)
            if process.poll() is not None:
                return
            if boot == 1:
                link.connect(monitor)
            link.sendall(b"system_reset\n")
            count("cuts")
        process.wait()


def cut_power(machine, kind, which, cuts):
    """A guest whose power is cut."""
    work, programs, steps = kind
    share, chance = machine.share(), random.Random(f"{machine.seed} {work} cuts {which}")
    monitor = os.path.join(share, "monitor")
    options = ["--reboot", "--monitor", monitor, "--timeout", str(1800 + 600 * cuts)]
    options += options_of(work, programs, "cuts.sh")
    words = machine.guest_words(OF_FILES, share, script(machine, "cuts.sh", work, cuts), options)
    with open(os.path.join(share, "told"), "w+b") as told:
        process = subprocess.Popen(words, stdout=told, stderr=told)
        cut_again_and_again(process, monitor, share, cuts, chance)
        told.seek(0)
        text = told.read().decode(errors="replace")
    look(process.returncode == 0, f"the guest ended by {process.returncode}: {text[-600:]}")
    judge(share, text, steps, cuts + 1)


# ---- the program is killed


def kill_server(machine, kind, which, kills):
    """A guest in which the program that serves is killed."""
    work, programs, steps = kind
    share, chance = machine.share(), random.Random(f"{machine.seed} {work} ends {which}")
    for turn in range(1, kills + 1):
        in_start = turn > 1 and chance.random() < 0.2
        answers = "start" if in_start else chance.randrange(1, 40)
        pause = chance.randrange(2_000_000 if in_start else 500_000)
        write_file(share, f"moment.{turn}", f"{answers} {pause}\n")
    options = options_of(work, programs, "ends.sh")
    text = machine.guest(OF_FILES, share, script(machine, "ends.sh", work), options=options, seconds=1800 + 600 * kills)
    count("kills of the program that serves", read_file(share, "boots").count("killed "))
    judge(share, text, steps, kills + 1)


def divided(machine, job, kind, number):
    """Does a job in several guests, so many times in all."""
    shares = enumerate(machine.parts_of(number))
    return [(job, kind, which, times) for which, times in shares]


def run_all(machine, jobs):
    """Runs guests side by side."""
    install(PROGRAMS + ["sqlite3"])
    machine.side_by_side(lambda item: item[0](machine, *item[1:]), jobs)


def try_cuts(machine, cuts):
    """Synced files, and power cuts."""
    run_all(machine, divided(machine, cut_power, FILES, cuts))


def try_ends(machine, kills):
    """Synced files, and kills of the program that serves."""
    run_all(machine, divided(machine, kill_server, FILES, kills))


def try_sqlite(machine, number):
    """Transactions of SQLite. The first half are kills, and the other half are power cuts."""
    cuts = number // 2
    jobs = divided(machine, kill_server, TRANSACTIONS, number - cuts)
    run_all(machine, jobs + divided(machine, cut_power, TRANSACTIONS, cuts))
