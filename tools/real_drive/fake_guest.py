"""What stands for a guest in a run with --fake: a shell on this machine, whose programs meet a drive in files.

It takes the same jobs as AskedGuest. Their folders /in, /share and /tmp are folders of this machine. A disk is served
through nbdfuse and a loop device (fake_serving.sh)."""

import os
import re
import struct
import subprocess

from machine import HERE, read_file, script_of, write_file

FOLDERS = re.compile(r"(?<![\w./])/(in|share|tmp)\b")
PORT_TESTS = os.path.join(HERE, "..", "..", "ports", "linux", "tests")
EMPTY = 1
SERVING = "serving.sh", "fake_serving.sh"
# Does one job after the other, each when a line comes, and writes its status.
JOBS = """. /in/fake_serving.sh
job() { . /share/job; }
while read -r _; do
    job > /share/told 2>&1 < /dev/null
    echo $?
done
"""
# Puts the library of the drive before the program, after one that a job asks for.
PROGRAM = """#!/bin/sh
export FAKE_FOLDER=/tmp FAKE_SHAPE='{shape}'
LD_PRELOAD="${{LD_PRELOAD:+$LD_PRELOAD:}}/in/fake_device.so" exec /in/built/zonedisk "$@"
"""
# What `nvme zns report-zones` shows, and what `nvme zns reset-zone /dev/ng0n1 -s START` does.
REPORT = """#!/bin/sh
[ "$2" != reset-zone ] || exec python3 {reset} {size} /tmp/zones $5
exec python3 {tool} {size} /tmp/zones
"""


def told(words):
    """What a command writes, also if it fails."""
    return subprocess.run(words, capture_output=True, text=True, check=False).stdout


class FakeGuest:
    """A drive that can fail in part, and a shell for it. `image` is the file that keeps its blocks."""

    # Whether it can answer an Append and not do it, be write protected, and have its cache on again.
    loses = True

    def __init__(self, machine, shape, scripts=()):
        self.shape, self.spoils, self.root = shape, machine.spoils, machine.share()
        self.share, self.image = os.path.join(self.root, "share"), os.path.join(self.root, "tmp", "image")
        for name in ("in", "share", "tmp"):
            os.mkdir(os.path.join(self.root, name))
        self.make_drive()
        numbers = [shape.block, shape.zones, shape.size, shape.capacity, shape.transfer, shape.active, shape.open]
        for name in (*SERVING, *scripts):
            self.put(name, self.here(read_file(HERE, name)))
        # The process has the name of the link.
        os.mkdir(os.path.join(self.root, "in", "built"))
        os.symlink(machine.program, os.path.join(self.root, "in", "built", "zonedisk"))
        self.put("zonedisk", self.here(PROGRAM).format(shape=" ".join(map(str, numbers))))
        self.put("nvme", self.here(REPORT).format(tool=os.path.join(HERE, "fake_report.py"), size=shape.size,
                                               reset=os.path.join(HERE, "fake_reset.py")))
        drive = [os.path.join(HERE, "fake_device.c"), os.path.join(PORT_TESTS, "fake_drive.c")]
        self.compile("fake_device.so", drive)
        write_file(self.root, "worn.c", self.here(read_file(HERE, "worn.c")))
        self.compile("worn.so", [os.path.join(self.root, "worn.c")])
        self.shell = self.start()

    def make_drive(self):
        """The files of an empty drive."""
        with open(self.image, "wb") as image:
            image.truncate(self.shape.zones * self.shape.size * self.shape.block)
        with open(os.path.join(self.root, "tmp", "zones"), "wb") as zones:
            zones.write(struct.pack("<II", EMPTY, 0) * self.shape.zones)

    def here(self, text):
        """A text with the folders of this machine."""
        return FOLDERS.sub(lambda found: f"{self.root}/{found.group(1)}", text)

    def put(self, name, text):
        """Writes a program of the folder /in."""
        path = os.path.join(self.root, "in")
        write_file(path, name, text)
        os.chmod(os.path.join(path, name), 0o755)

    def compile(self, name, sources):
        """Compiles a library into the folder /in."""
        target = os.path.join(self.root, "in", name)
        words = [os.environ.get("CC", "cc"), "-shared", "-fPIC", "-O1", "-o", target, *sources]
        subprocess.run(words, check=True)

    def start(self):
        """The shell that does the jobs."""
        write_file(self.root, "jobs", self.here(JOBS))
        paths = os.path.join(self.root, "in") + ":" + os.environ["PATH"]
        return subprocess.Popen(["sh", os.path.join(self.root, "jobs")], stdin=subprocess.PIPE, stdout=subprocess.PIPE,
                                text=True, env={**os.environ, "PATH": paths, "BLOCKS": str(self.shape.blocks)})

    def __enter__(self):
        return self

    def __exit__(self, *_):
        self.shell.communicate()
        self.tidy()

    def tidy(self):
        """Gives back what a job that failed has left: a mount, a loop device and the file that is served."""
        files, disk = (os.path.join(self.root, "tmp", name) for name in ("files", "disk"))
        loops = told(["losetup", "--noheadings", "--output", "NAME", "--associated", os.path.join(disk, "nbd")]).split()
        for words in (["umount", "-l", files], *(["losetup", "--detach", loop] for loop in loops), ["umount", "-l", disk]):
            told(words)

    def ask(self, script):
        """Does a job: its status, and what it wrote."""
        write_file(self.share, "job", self.here(script) + "\n")
        self.shell.stdin.write("\n")
        self.shell.stdin.flush()
        status = self.shell.stdout.readline()
        if not status:
            raise RuntimeError(f"the shell ended: {read_file(self.share, 'told')[-600:]}")
        return int(status), read_file(self.share, "told")

    def given(self, name):
        """The bytes of a file that a job left. One of them is changed if the run is to be spoiled."""
        with open(os.path.join(self.share, name), "rb") as file:
            data = file.read()
        return data[:-1] + bytes([data[-1] ^ 1]) if self.spoils else data

    def fail(self, kind, block=None, once=True, most=None):
        """From now on the drive fails as that of AskedGuest."""
        rule = f"{kind} {-1 if block is None else block} {int(once)} {most or 0}\n"
        write_file(os.path.join(self.root, "tmp"), "fault", rule)

    def mend(self):
        """From now on the drive does all again."""
        path = os.path.join(self.root, "tmp", "fault")
        if os.path.exists(path):
            os.remove(path)
