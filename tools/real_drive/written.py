"""A disk on the drive of a guest: what is written to it, and what each of its blocks may hold then."""

import re

from looks import count, look
from machine import read_file, write_file
from saved import DEVICE, texts_of
from traces import Line, answered, random_write, text_of

RUN = f"zonedisk run {DEVICE} --blocks $BLOCKS < /share/lines > /share/replies 2> /share/replies.said; status=$?"
SEE_ZONES = "nvme zns report-zones /dev/ng0n1 -d 60"
SEE = f"{SEE_ZONES} > /share/report; return $status"


class Written:
    """What a disk holds. Of each block: the texts that it may be now, and all that it was."""

    def __init__(self, guest, chance):
        self.guest, self.chance, self.shape = guest, chance, guest.shape
        self.may_be, self.held = [], []

    def lines(self, number):
        """So many random lines."""
        return [random_write(self.shape, self.chance) for _ in range(number)]

    def begin(self, number=30):
        """Makes the drive anew, with some lines that are flushed. Every second disk is full, so that it is cleaned."""
        fresh = self.shape.fresh()
        self.may_be, self.held = [{text} for text in fresh], [{text} for text in fresh]
        full = Line(f"fill 0 {self.shape.blocks} ee", 0, [f"ee*{self.shape.block}"] * self.shape.blocks)
        lines = [full] * (self.chance.random() < 0.5) + self.lines(number)
        ended = self.run(lines, before=f"zonedisk format {DEVICE} --force 2> /dev/null || return 9; ")
        look(ended == (0, "ok"), f"{self.shape}: a run of a whole drive ended by {ended}")

    def run(self, lines, before=""):
        """Runs lines: the status, and the last line of the replies."""
        write_file(self.guest.share, "lines", text_of(lines))
        status, _ = self.guest.ask(f"{before}{RUN}; {SEE}")
        replies = read_file(self.guest.share, "replies")
        done = answered(replies)
        count("lines answered", done)
        for line in lines[:done]:
            self.write(line, is_done=True)
        # Of the line at which it stopped a front may be done.
        for line in lines[done:done + 1]:
            self.write(line, is_done=False)
        return status, (replies.splitlines() or [""])[-1]

    def write(self, line, is_done):
        """A line that is done, or maybe."""
        for number, text in enumerate(line.blocks, line.first):
            self.held[number].add(text)
            self.may_be[number] = {text} | (set() if is_done else self.may_be[number])

    def is_there(self, blocks):
        """Whether blocks are all as they may be."""
        return len(blocks) == len(self.may_be) and all(text in self.may_be[at] for at, text in enumerate(blocks))

    def read_all(self):
        """Mounts the disk and reads it: its blocks."""
        self.guest.ask(f"zonedisk export {DEVICE} > /share/array")
        return texts_of(self.guest.given("array"), self.shape.block)

    def zones_that_are(self, *states):
        """The zones that were in some states after the last run: the start and the pointer of each."""
        return zones_that_are(self.guest, *states)


def zones_that_are(guest, *states):
    """The zones in some states, of the report that a guest left: the start and the pointer of each."""
    found = re.findall(r"SLBA: (\w+) +WP: (\w+) .* State: (\w+)", read_file(guest.share, "report"))
    return [(int(start, 16), int(pointer, 16)) for start, pointer, state in found if int(state, 16) >> 4 in states]
