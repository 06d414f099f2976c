"""Drives that give one wrong answer. `lies.c` tells it, between the program and the drive."""

import os
import random
import subprocess

from looks import count, look
from machine import read_file, script_of, write_file
from shapes import SMALL
from traces import blocks_of, is_left, random_write, text_of

LIES = """
turn=1
while [ -e /share/lines.$turn ]; do
    rm -f /tmp/lied
    LIE=$(cat /share/lie.$turn) LD_PRELOAD=/in/lies.so \\
        zonedisk run --device /dev/ng0n1 --blocks $1 < /share/lines.$turn > /share/replies.$turn
    echo $? $([ -e /tmp/lied ] && echo lied) > /share/ended.$turn
    echo "read 0 $1" | zonedisk run --device /dev/ng0n1 --blocks $1 > /share/array.$turn
    turn=$((turn + 1))
done
"""
# Which lies there are, from which command on, and up to which. The first reports are those of a start, which are
# believed: that is what the proofs assume.
KINDS = {"address": (1, 120), "status": (1, 120), "lost": (1, 120), "done": (1, 120),
         "pointer": (3, 4), "state": (3, 4), "cache": (1, 2)}


def judge_lie(machine, shape, share, turn, lie, lines, array):
    """Looks whether a run stopped at a lie, and what it had answered is there: the array that was found."""
    status, _, lied = read_file(share, f"ended.{turn}").strip().partition(" ")
    found = blocks_of(machine.given(share, f"array.{turn}"))
    replies = read_file(share, f"replies.{turn}")
    count("lies", bool(lied))
    look(status == ("1" if lied else "0"), f"{shape}: {lie} ended by {status}: {replies[-80:]!r}")
    look(is_left(lines, replies, array, found), f"{shape}: {lie} lost a line")
    return found


def make_library(machine):
    """Compiles what lies."""
    library = os.path.join(machine.work, "lies.so")
    words = [os.environ.get("CC", "cc"), "-shared", "-fPIC", "-O1", "-o", library, script_of("lies.c")]
    subprocess.run(words, check=True)
    return library


def try_some(machine, library, which, number):
    """Some runs on a drive that lies once in each, and an honest run after each."""
    shape, share = SMALL[1], machine.share()
    chance = random.Random(f"{machine.seed} lies {which}")
    lines, lies = [], []
    for turn in range(number):
        kind = list(KINDS)[turn % len(KINDS)]
        lies.append(f"{kind} {chance.randrange(*KINDS[kind])}")
        lines.append([random_write(shape, chance) for _ in range(400)])
        write_file(share, f"lines.{turn + 1}", text_of(lines[turn]))
        write_file(share, f"lie.{turn + 1}", lies[turn])
    machine.guest(shape, share, LIES, str(shape.blocks), options=["--file", library], seconds=1200 + 60 * number)
    array = shape.fresh()
    for turn in range(number):
        array = judge_lie(machine, shape, share, turn + 1, lies[turn], lines[turn], array)


def try_lies(machine, number):
    """Runs on drives that lie."""
    library = make_library(machine)
    shares = machine.parts_of(number)
    machine.side_by_side(lambda item: try_some(machine, library, *item), list(enumerate(shares)))
