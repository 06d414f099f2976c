"""Random lines on a drive of a guest and on one in memory: what is replied and shown has to be the same."""

import os
import random

import entries
from looks import count, look
from machine import read_file, write_file
from shapes import SMALL
from traces import random_line, text_of

TURNS = range(1, 5)
# The lines of info that a mount tells.
OF_A_MOUNT = ("mount ", "next sequence ", "batches left ")
JOBS = ["report", "check", "info", "export"]

RUNS = """
turn=1
while [ -e /share/lines.$turn ]; do
    zonedisk run --device /dev/ng0n1 --blocks $1 --statistics < /share/lines.$turn > /share/replies.$turn
    echo "status $?" >> /share/replies.$turn
    turn=$((turn + 1))
done
for job in report check info export; do
    zonedisk $job --device /dev/ng0n1 > /share/$job 2> /share/$job.told
    echo "status $?" >> /share/$job
done
"""


def shown_by(job, text):
    """What a job has to show alike: a device has its open zones closed, and is not mounted for info."""
    if job == "report":
        return text.replace("ImplicitlyOpened", "Closed").replace("ExplicitlyOpened", "Closed")
    if job == "info":
        return [line for line in text.splitlines() if not line.startswith(OF_A_MOUNT)]
    return text


def different(given, wanted):
    """The first line in which two texts differ."""
    pairs = (text if isinstance(text, list) else text.splitlines() for text in (given, wanted))
    for number, (got, want) in enumerate(zip(*pairs), 1):
        if got != want:
            return f"line {number} is {got[:120]!r}, and in memory {want[:120]!r}"
    return f"{len(given)} and {len(wanted)} long"


def compare_replies(machine, shape, share, image):
    """Answers the lines of each run in memory, and looks whether the guest's drive gave the same replies."""
    for turn in TURNS:
        data = read_file(share, f"lines.{turn}")
        words = ["run", "--image", image, "--blocks", str(shape.blocks), "--statistics"]
        wanted = machine.here(*words, data=data)
        count("lines", data.count("\n"))
        count("mounts in between", data.count("remount\n") + 1)
        given = machine.given(share, f"replies.{turn}")
        count("lines of replies", given.count("\n"))
        look(given == wanted, f"{shape}: the replies of run {turn}: {different(given, wanted)}")


def compare_lines(machine, shape, number):
    """Answers random lines on a drive of a guest and on one in memory, in several runs."""
    share, chance = machine.share(), random.Random(f"{machine.seed} lines {shape}")
    image = os.path.join(share, "image")
    for turn in TURNS:
        here = number // len(TURNS) + (turn <= number % len(TURNS))
        write_file(share, f"lines.{turn}", text_of(random_line(shape, chance) for _ in range(here)))
    machine.guest(shape, share, RUNS, str(shape.blocks), seconds=1200 + 2 * number)
    made = machine.here("format", "--force", "--image", image, *shape.for_memory())
    look(made == "ok\nstatus 0\n", f"{shape}: a drive in memory cannot be made: {made}")
    compare_replies(machine, shape, share, image)
    for job in JOBS:
        wanted = shown_by(job, machine.here(job, "--image", image))
        given = shown_by(job, read_file(share, job))
        look(given == wanted, f"{shape}: {job}: {different(given, wanted)}")


def try_lines(machine, number):
    """Random lines and entries over drives of all shapes."""
    jobs = [(job, shape) for shape in SMALL for job in (compare_lines, entries.compare_entries)]
    machine.side_by_side(lambda item: item[0](machine, item[1], number), jobs)
