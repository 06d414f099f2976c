"""Runs that are killed by SIGKILL at random moments."""

import random

from looks import count, look
from machine import read_file, write_file
from shapes import SMALL
from traces import answered, blocks_of, is_left, random_write, text_of

KILLS = """
turn=1
while [ -e /share/lines.$turn ]; do
    read bytes pause < /share/moment.$turn
    : > /tmp/replies
    zonedisk run --device /dev/ng0n1 --blocks $1 < /share/lines.$turn > /tmp/replies &
    looks=0
    while [ $looks -lt 9000 ] && [ $(stat -c %s /tmp/replies) -lt $bytes ]; do
        usleep 10000
        looks=$((looks + 1))
    done
    usleep $pause
    kill -9 $!
    wait $!
    cp /tmp/replies /share/replies.$turn
    echo "read 0 $1" | zonedisk run --device /dev/ng0n1 --blocks $1 > /share/array.$turn
    turn=$((turn + 1))
done
zonedisk check --device /dev/ng0n1 --blocks $1 > /share/check
echo "status $?" >> /share/check
"""


def judge(machine, shape, share, lines):
    """Looks whether each run left what it had answered."""
    array = shape.fresh()
    for turn, written in enumerate(lines, 1):
        found = blocks_of(machine.given(share, f"array.{turn}"))
        replies = read_file(share, f"replies.{turn}")
        count("kills")
        count("lines answered", answered(replies))
        look(is_left(written, replies, array, found), f"{shape}: kill {turn} lost a line")
        array = found
    check = read_file(share, "check")
    look(check.endswith("status 0\n"), f"{shape}: check: {check[-200:]}")


def kill_runs(machine, shape, turns):
    """Runs of one shape that are killed."""
    if not turns:
        return
    share, chance = machine.share(), random.Random(f"{machine.seed} kills {shape}")
    lines = [[random_write(shape, chance) for _ in range(3000)] for _ in range(turns)]
    for turn, written in enumerate(lines, 1):
        write_file(share, f"lines.{turn}", text_of(written))
        moment = chance.choice([0, chance.randrange(3000)]), chance.randrange(2_000_000)
        write_file(share, f"moment.{turn}", " ".join(map(str, moment)))
    machine.guest(shape, share, KILLS, str(shape.blocks), seconds=1200 + 60 * turns)
    judge(machine, shape, share, lines)


def try_kills(machine, kills):
    """Runs that are killed, a part of them in each shape."""
    turns = [kills // len(SMALL) + (number < kills % len(SMALL)) for number in range(len(SMALL))]
    machine.side_by_side(lambda item: kill_runs(machine, *item), list(zip(SMALL, turns)))
