#!/usr/bin/env python3
"""Serves the base image of a recording over NBD, and records what is asked of it and what the user is told.

usage: recorder.py FOLDER BLOCK

FOLDER has base.img. There the recorder makes `disk.sock`, a Unix socket for one client after the other, and `marks`, a
fifo whose lines are the marks. It serves until its standard input ends and no client is left. Then the log is whole.

One request is done and answered before the next one is read. All of it is one loop, so the order is exact: before a
request is taken, each line that is in the fifo by then is put into the log. So a line that was written after a reply
and before the next request is recorded between the two.

Its standard output has one line as soon as clients may connect.
"""

import os
import select
import shutil
import socket
import sys

sys.dont_write_bytecode = True
import nbd_server as nbd  # noqa: E402
from recordings import RecordingWriter  # noqa: E402

NAMES = {nbd.WRITE: "write", nbd.ZEROES: "zero", nbd.TRIM: "trim"}


class Marks:
    """The fifo: lines that the user was told."""

    def __init__(self, path, writer):
        os.mkfifo(path)
        self.fifo = os.open(path, os.O_RDWR | os.O_NONBLOCK)
        self.writer, self.rest = writer, b""

    def take(self):
        """Puts all lines that are there into the log."""
        while True:
            try:
                part = os.read(self.fifo, 1 << 16)
            except BlockingIOError:
                return
            *lines, self.rest = (self.rest + part).split(b"\n")
            for line in lines:
                self.writer.mark(line.decode(errors="replace"))


class Recorder:
    """The served disk, its log, and the one client."""

    def __init__(self, folder, block):
        self.block = block
        path = os.path.join(folder, "disk.img")
        shutil.copyfile(os.path.join(folder, "base.img"), path)
        self.disk = os.open(path, os.O_RDWR)
        os.unlink(path)
        self.size = os.fstat(self.disk).st_size
        self.writer = RecordingWriter(folder, block)
        self.marks = Marks(os.path.join(folder, "marks"), self.writer)
        self.listener = socket.socket(socket.AF_UNIX)
        self.listener.bind(os.path.join(folder, "disk.sock"))
        self.listener.listen(4)
        self.client = None

    def fault_of(self, command, at, length):
        """The error that a request is answered by, or 0."""
        if command not in (nbd.READ, nbd.FLUSH, *NAMES):
            return nbd.INVALID
        if at % self.block or length % self.block:
            return nbd.INVALID
        if at + length > self.size:
            return nbd.NO_SPACE if command in (nbd.WRITE, nbd.ZEROES) else nbd.INVALID
        return 0

    def do(self, flags, command, at, length, data):
        """Does a request, and records it if it may change what a loss of power leaves. The bytes of the reply."""
        if command == nbd.READ:
            return os.pread(self.disk, length, at)
        if command == nbd.FLUSH:
            self.writer.request("flush")
            return b""
        os.pwrite(self.disk, data if command == nbd.WRITE else bytes(length), at)
        self.writer.request(NAMES[command], at, length, data, bool(flags & nbd.FUA))
        return b""

    def serve_request(self):
        """Takes one request and answers it."""
        flags, command, cookie, at, length, data = nbd.next_request(self.client)
        self.marks.take()
        if command == nbd.DISCONNECT:
            raise nbd.Gone("the client says so")
        fault = self.fault_of(command, at, length)
        nbd.answer(self.client, cookie, fault, b"" if fault else self.do(flags, command, at, length, data))

    def greet(self):
        """Accepts a client."""
        client, _ = self.listener.accept()
        if nbd.shake_hands(client, self.size, self.block):
            self.client = client

    def wait(self, may_end):
        """Waits for what comes next, and does it: a client, its request, a mark, or the end. What was there."""
        ways = [self.client or self.listener, self.marks.fifo] + ([] if may_end else [0])
        ready = select.select(ways, [], [], 0.05 if may_end else None)[0]
        self.marks.take()
        try:
            if self.client and self.client in ready:
                self.serve_request()
            elif self.listener in ready:
                self.greet()
        except (nbd.Gone, OSError):
            self.leave()
        return ready

    def leave(self):
        """Lets the client go."""
        if self.client:
            self.client.close()
        self.client = None

    def run(self):
        """Serves until standard input ends and no client is left."""
        print("ready", flush=True)
        may_end = False
        while True:
            ready = self.wait(may_end)
            if may_end and not ready and not self.client:
                break
            may_end = may_end or (0 in ready and not os.read(0, 1))
        self.marks.take()
        self.writer.end()


if __name__ == "__main__":
    Recorder(sys.argv[1], int(sys.argv[2])).run()
