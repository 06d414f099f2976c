"""Makes the image that a loss of power leaves, by zonedisk itself.

A drive is filled with the base image of a recording. For each cut a copy of it is served by `PROGRAM nbd`, which gets
the requests of the recording. Then the power fails, and `PROGRAM export` writes the image.
"""

import os
import re
import shutil
import socket
import subprocess
from typing import NamedTuple, Optional

from recordings import bytes_of

TOP = os.path.dirname(os.path.dirname(os.path.dirname(os.path.abspath(__file__))))
# The program that examples/run builds.
BUILT = os.path.join(TOP, "crates", "zonedisk", "out", "zonedisk")
# The part of a drive's blocks that the disk takes. More makes writes slow.
PART = 0.7
LOST = re.compile(r"power cut after \d+ requests: (\d+) of (\d+) pending blocks lost")


class ProgramFailed(Exception):
    """The program did not do what it has to do."""


class Cut(NamedTuple):
    """A loss of power: after how many requests, and what is left of the blocks that no FLUSH covers.

    Without a seed each answered write is kept. Else of 100 such blocks about `odds` are lost, as the seed chooses.
    """

    at: int
    seed: Optional[int] = None
    odds: int = 50


class Told(NamedTuple):
    """What the program told of a cut: how many blocks were pending, and how many of them it lost."""

    pending: int
    lost: int


def shape_of(recording):
    """The words of `format` for a drive that has room for the recording's disk."""
    blocks = recording.size // recording.block
    capacity = min(max(blocks // 16, 16), 1024)
    zones = int(blocks / PART / capacity) + 4
    shape = {"block": recording.block, "zones": zones, "size": capacity, "capacity": capacity,
             "transfer": min(capacity, 256), "active": 8, "open": 8}
    return [word for name, number in shape.items() for word in (f"--{name}", str(number))]


def run_program(*words, stdout=subprocess.DEVNULL, **settings):
    """Runs the program, which has to succeed."""
    done = subprocess.run(words, stdout=stdout, stderr=subprocess.PIPE, check=False, **settings)
    if done.returncode != 0:
        raise ProgramFailed(f"{' '.join(words[:4])} ended by {done.returncode}: {done.stderr.decode()[-300:]}")


class Served:
    """The program while it serves, and a client of it."""

    def __init__(self, words):
        import nbd  # libnbd, which `show` does not need
        ours, theirs = socket.socketpair()
        self.process = subprocess.Popen(words, stdin=theirs, stdout=theirs, stderr=subprocess.PIPE)
        theirs.close()
        self.ours, self.client, self.fua, self.fault = ours, nbd.NBD(), nbd.CMD_FLAG_FUA, nbd.Error
        try:
            self.client.connect_socket(os.dup(ours.fileno()))
        except nbd.Error as fault:
            raise ProgramFailed(f"nbd does not serve: {fault}; {self.leave()[1]}") from fault

    def send(self, request, data):
        """Sends a request, and waits for its reply."""
        flags = self.fua if request.fua else 0
        try:
            if request.op == "flush":
                self.client.flush()
            elif request.op == "write":
                self.client.pwrite(bytes_of(request, data), request.at, flags)
            elif request.op == "zero":
                self.client.zero(request.length, request.at, flags)
            else:
                self.client.trim(request.length, request.at, flags)
        except self.fault as fault:
            raise ProgramFailed(f"request {request.number}: {fault}") from fault

    def leave(self):
        """The client is gone without a word: the exit status of the program, and what it told."""
        self.ours.shutdown(socket.SHUT_RDWR)
        self.ours.close()
        told = self.process.stderr.read().decode()
        del self.client
        return self.process.wait(), told


class Cutter:
    """Makes images of a recording's cuts. `scratch` is a folder for drives."""

    def __init__(self, recording, program, scratch):
        self.recording, self.program, self.scratch = recording, os.path.abspath(program), scratch
        self.base = os.path.join(scratch, "base.drive")
        self.data = recording.open_data()

    def prepare(self):
        """Makes the drive with the base image, which each cut copies. It is called once, before any job starts."""
        run_program(self.program, "format", "--image", self.base, *shape_of(self.recording))
        with self.recording.open_base() as blocks:
            run_program(self.program, "import", "--image", self.base, "--sparse", "--blocks", self.blocks(),
                        stdin=blocks)

    def blocks(self):
        """How many blocks the disk has, as a word."""
        return str(self.recording.size // self.recording.block)

    def serving_words(self, drive, cut):
        """What serves the drive until the cut."""
        words = [self.program, "nbd", "--image", drive]
        if cut.seed is None:
            return words
        return [*words, "--forget", str(cut.seed), "--odds", str(cut.odds), "--cut-after", str(cut.at)]

    def serve(self, drive, cut):
        """Sends the requests before the cut. What the program told, and nothing if each answered write is kept."""
        served = Served(self.serving_words(drive, cut))
        try:
            for request in self.recording.requests[:cut.at]:
                served.send(request, self.data)
        finally:
            status, told = served.leave()
        found = LOST.search(told)
        if status != 0 or (cut.seed is not None and not found):
            raise ProgramFailed(f"nbd ended by {status}: {told[-300:]}")
        return Told(int(found[2]), int(found[1])) if found else None

    def write_image(self, cut, path):
        """Writes the image of a cut to a file. What the program told of it."""
        drive = os.path.join(self.scratch, f"cut.{os.getpid()}.drive")
        shutil.copyfile(self.base, drive)
        told = self.serve(drive, cut)
        with open(path, "wb") as image:
            run_program(self.program, "export", "--image", drive, "--count", self.blocks(), stdout=image)
        os.remove(drive)
        return told


def pending_counts(recording):
    """How many blocks may be pending after 0, 1, 2 .. requests: a list with one number more than requests.

    A block that was written twice counts twice. The cache of `nbd --forget` has 64 MiB; that it is full is not counted.
    """
    counts, total, pending = [0], 0, {}
    for request in recording.requests:
        blocks = range(request.at // recording.block, (request.at + request.length) // recording.block)
        if request.op == "flush":
            total, pending = 0, {}
        elif request.fua:
            total -= sum(pending.pop(block, 0) for block in blocks)
        else:
            total += len(blocks)
            pending.update({block: pending.get(block, 0) + 1 for block in blocks})
        counts.append(total)
    return counts
