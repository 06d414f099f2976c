"""What can be had of a drive that failed in part: by a rescue, by `check`, and by a mount."""

import json
import os
import re

from looks import count, look
from machine import read_file

DEVICE = "--device /dev/ng0n1"
# Both rescues, to a new drive that is read again and as flat blocks. A rescue changes no zone.
RESCUES = {
    "new": f"""zonedisk rescue {DEVICE} --json /tmp/lists --to /tmp/new 2> /share/said; echo $? > /share/rescued
        zonedisk export --image /tmp/new > /share/given""",
    "flat": f"""zonedisk rescue {DEVICE} --json /tmp/lists > /share/given 2> /share/said; echo $? > /share/rescued""",
}
BEFORE = "nvme zns report-zones /dev/ng0n1 -d 60 > /tmp/before; rm -f /tmp/new /tmp/lists"
# What else is asked: `check`, and a run that reads a block.
AFTER = f"""cp /tmp/lists /share/lists
nvme zns report-zones /dev/ng0n1 -d 60 | cmp - /tmp/before || echo "a rescue changed the zones"
zonedisk check {DEVICE} > /share/check 2>&1; echo "status $?" >> /share/check
echo "read $block 1" | zonedisk run {DEVICE} --blocks $BLOCKS > /share/replies 2> /share/replies.said"""
FILES = "said", "lists", "given", "rescued", "check", "replies", "replies.said"


def texts_of(data, block):
    """Blocks as a read shows them: a text for each."""
    parts = (data[at:at + block] for at in range(0, len(data), block))
    return [f"{part[:1].hex()}*{block}" if part == part[:1] * block else part.hex() for part in parts]


def listed(ranges):
    """The blocks of the ranges of a list."""
    return {block for part in ranges for block in range(part["first"], part["first"] + part["count"])}


def told(text, kind):
    """The blocks that standard error lists as something."""
    found = set()
    for first, last in re.findall(rf"{kind}[^:\n]*: blocks? (\d+)(?: to (\d+))?\n", text):
        found |= set(range(int(first), int(last or first) + 1))
    return found


class Saved:
    """What is given of the drive of a guest, and what is said of it."""

    def __init__(self, guest, name, kind, read=0):
        self.guest, self.name, self.block = guest, name, guest.shape.block
        for file in FILES:
            if os.path.exists(os.path.join(guest.share, file)):
                os.remove(os.path.join(guest.share, file))
        _, text = guest.ask("\n".join([f"block={read}", BEFORE, RESCUES[kind], AFTER]))
        look(not text, f"{name}: {text[-300:]}")
        self.blocks, self.said = texts_of(guest.given("given"), self.block), self.text("said")
        lists = json.loads(self.text("lists") or "{}")
        self.lost, self.older = listed(lists.get("lost", [])), listed(lists.get("older", []))
        self.look_at_rescue(lists.get("blocks"))
        self.check = self.text("check").splitlines()
        self.reply = (self.text("replies").splitlines() or [""])[-1]

    def text(self, name):
        """The text of a file that the guest left."""
        return read_file(self.guest.share, name)

    def look_at_rescue(self, number):
        """Looks whether a rescue gave as many blocks as it says, with the same lists twice, and the right status."""
        said = told(self.said, "lost"), told(self.said, "older")
        look(said == (self.lost, self.older), f"{self.name}: standard error and JSON differ: {self.said[-300:]}")
        look(len(self.blocks) == number, f"{self.name}: {len(self.blocks)} blocks, and JSON says {number}")
        status, wanted = self.text("rescued").strip(), "1" if self.lost or self.older else "0"
        look(status == wanted, f"{self.name}: status {status}, and not {wanted}: {self.said[-300:]}")

    def is_refused(self, why):
        """Whether `check` says why the drive is not mounted."""
        return self.check[-1] == "status 1" and self.check[0].startswith(f"refused: {why}")

    def has_failed(self):
        """Whether `check` says at which command the drive failed, and which zone cannot be read."""
        named = any(line.endswith("cannot be read: the drive failed at a command") for line in self.check)
        return self.check[-1] == "status 1" and "answered a Read" in self.check[0] and named

    def judge(self, disk):
        """Looks at each block: what is not listed has to be what it may be. A lost one is zeros, and one that is
        perhaps older is what it is or was."""
        for number, text in enumerate(self.blocks):
            if number in self.lost:
                look(text == f"00*{self.block}", f"{self.name}: block {number} is lost, and not zeros")
            elif number in self.older:
                is_known = text in disk.may_be[number] | disk.held[number]
                look(is_known, f"{self.name}: block {number} is {text[:40]}, which it never was")
                count("blocks perhaps older, and the newest all the same", text in disk.may_be[number])
            else:
                count("blocks not listed")
                may_be = disk.may_be[number]
                look(text in may_be, f"{self.name}: block {number} is {text[:40]}, and may be {str(may_be)[:80]}")
        count("blocks lost", len(self.lost))
        count("blocks perhaps older", len(self.older))
