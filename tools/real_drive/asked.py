"""A guest that is asked for one job after the other, while this machine breaks its drive and mends it.

QEMU's driver `blkdebug` is put between the drive and the file that keeps its blocks. Its rules make single reads,
writes and flushes fail: the drive then answers by Unrecovered Read Error or Write Fault.
"""

import os
import re
import socket
import subprocess
import time

from looks import look
from machine import read_file, write_file

PROMPT = b"(qemu) "
# What the drive is called in the monitor, and its node that fails.
DRIVE, FAILING = "/machine/peripheral/n0", "failing"
SECTOR = 512


class Monitor:
    """QEMU's monitor."""

    def __init__(self, path):
        self.link = socket.socket(socket.AF_UNIX)
        self.link.connect(path)
        self.answer()

    def answer(self):
        """What the monitor says until it waits for a line."""
        said = b""
        while not said.endswith(PROMPT):
            more = self.link.recv(1 << 16)
            if not more:
                return said.decode(errors="replace")
            said += more
        return said.decode(errors="replace")

    def ask(self, line):
        """Does a line, which has to be done without an error."""
        self.link.sendall(line.encode() + b"\n")
        said = self.answer()
        if "Error" in said:
            raise RuntimeError(f"{line}: {said}")
        return said


class AskedGuest:
    """A guest that runs until it is left. `image` is the file that keeps its blocks."""

    # Whether its drive can answer an Append and not do it.
    loses = False

    def __init__(self, machine, shape, options=(), seconds=7200):
        self.shape, self.share, self.turn, self.spoils = shape, machine.share(), 0, machine.spoils
        self.image = os.path.join(self.share, "image")
        monitor = os.path.join(self.share, "monitor")
        script = f"BLOCKS={shape.blocks}\n. /in/asked.sh\n"
        words = ["--monitor", monitor, "--image", self.image, "--namespace", "id=n0", "--timeout", str(seconds)]
        words += options
        with open(os.path.join(self.share, "guest"), "wb") as told:
            self.process = subprocess.Popen(machine.guest_words(shape, self.share, script, words), stdout=told,
                                            stderr=told)
        try:
            self.ask("true")
            self.monitor = Monitor(monitor)
            self.node = re.search(r"d0 \((#block\d+)\)", self.monitor.ask("info block d0")).group(1)
        except BaseException:
            self.process.terminate()
            raise

    def __enter__(self):
        return self

    def __exit__(self, *_):
        write_file(self.share, f"job.{self.turn + 1}", "exit 0\n")
        try:
            look(self.process.wait(60) == 0, f"{self.shape}: the guest ended by {self.process.returncode}")
        except subprocess.TimeoutExpired:
            self.process.terminate()
            self.process.wait()
            look(False, f"{self.shape}: the guest did not end")

    def ask(self, script):
        """Does a job: its status, and what it wrote."""
        self.turn += 1
        write_file(self.share, "job.new", script + "\n")
        os.rename(os.path.join(self.share, "job.new"), os.path.join(self.share, f"job.{self.turn}"))
        ended = os.path.join(self.share, f"ended.{self.turn}")
        while not os.path.exists(ended):
            if self.process.poll() is not None:
                raise RuntimeError(f"the guest ended: {read_file(self.share, 'guest')[-600:]}")
            time.sleep(0.02)
        return int(read_file(self.share, f"ended.{self.turn}")), read_file(self.share, f"told.{self.turn}")

    def given(self, name):
        """The bytes of a file that a job left. One of them is changed if the run is to be spoiled."""
        with open(os.path.join(self.share, name), "rb") as file:
            data = file.read()
        return data[:-1] + bytes([data[-1] ^ 1]) if self.spoils else data

    def fail(self, kind, block=None, once=True, most=None):
        """From now on the drive fails to read or to write a block, or to flush: once, or until it is mended.

        With `most` it does a command in parts of so many bytes, so those before the block are done."""
        words = f"driver=blkdebug,node-name={FAILING},image={self.node}"
        rule = {"event": "none", "iotype": kind, "errno": 5, "once": "on" if once else "off"}
        if block is not None:
            rule["sector"] = block * self.shape.block // SECTOR
        words += "".join(f",inject-error.0.{name}={value}" for name, value in rule.items())
        words += f",max-transfer={most}" if most else ""
        self.monitor.ask(f"drive_add -n 0 {words}")
        self.monitor.ask(f"qom-set {DRIVE} drive {FAILING}")

    def mend(self):
        """From now on the drive does all again."""
        self.monitor.ask(f"qom-set {DRIVE} drive {self.node}")
        self.monitor.ask(f"drive_del {FAILING}")
