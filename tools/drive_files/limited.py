"""fio writes and verifies a drive that is served under a memory limit."""

import json
import os
import shutil
import socket
import subprocess
import threading
import time

from looks import figures, look, succeeds, run

MIB = 1 << 20
# How many bytes a file may take on the disk, and which share of what is free.
MOST_BYTES, SHARE_OF_FREE = 20 * 10**9, 2
BLOCK = 4096
# 200 GiB, and 64 MiB.
LARGE = {"zones": 1600, "size": 32768, "capacity": 32768}
SMALL = {"zones": 64, "size": 256, "capacity": 256}
# How long the writes of a range are.
SIZES = ("--bs=4k", "--bsrange=4k-64k", "--bsrange=4k-256k", "--bs=128k", "--bs=1m")


class Limit:
    """A group of processes with a memory limit, in either version of Linux's control groups."""

    def __init__(self, most):
        self.most = most
        self.is_new = os.path.exists("/sys/fs/cgroup/cgroup.controllers")
        top = "/sys/fs/cgroup" if self.is_new else "/sys/fs/cgroup/memory"
        self.path = f"{top}/drive_files.{os.getpid()}"

    def __enter__(self):
        os.mkdir(self.path)
        self.put("memory.max" if self.is_new else "memory.limit_in_bytes", self.most)
        return self

    def __exit__(self, *_):
        for _ in range(100):
            try:
                return os.rmdir(self.path)
            except OSError:
                time.sleep(0.1)
        return None

    def put(self, name, number):
        """Sets a value of the group."""
        with open(f"{self.path}/{name}", "w", encoding="ascii") as file:
            file.write(f"{number}\n")

    def take(self):
        """Puts the present process into the group."""
        self.put("cgroup.procs", os.getpid())

    def read(self, name):
        """What stands in a file of the group."""
        try:
            with open(f"{self.path}/{name}", encoding="ascii") as file:
                return file.read()
        except OSError:
            return ""

    def peak(self):
        """The most bytes that the group has had, page cache included."""
        return int(self.read("memory.peak" if self.is_new else "memory.max_usage_in_bytes") or 0)

    def kills(self):
        """How many processes Linux has killed for want of memory."""
        lines = self.read("memory.events" if self.is_new else "memory.oom_control").splitlines()
        return sum(int(line.split()[1]) for line in lines if line.startswith("oom_kill "))


class Server:
    """A socket at which a program under the limit serves a drive to each client, one after the other."""

    def __init__(self, limit, folder, words):
        self.limit, self.path, self.words, self.server = limit, f"{folder}/socket", words, None
        self.is_ending = False
        self.uri = f"nbd+unix:///?socket={self.path}"

    def __enter__(self):
        self.listener = socket.socket(socket.AF_UNIX)
        self.listener.bind(self.path)
        self.listener.listen()
        self.thread = threading.Thread(target=self.accept, daemon=True)
        self.thread.start()
        return self

    def accept(self):
        """Starts a program for each client, and waits for its end."""
        while True:
            try:
                client, _ = self.listener.accept()
            except OSError:
                return
            with client:
                self.server = subprocess.Popen(self.words, stdin=client, stdout=client, preexec_fn=self.limit.take)
            self.watch()

    def watch(self):
        """Keeps the most memory that a program had, until it ends."""
        while self.server.poll() is None:
            figures["most MiB of memory of the program itself"] = max(
                figures["most MiB of memory of the program itself"], most_of(self.server.pid) // MIB)
            time.sleep(0.2)
        if not self.is_ending:
            look(self.server.returncode == 0, f"the server ended by {self.server.returncode}")

    def __exit__(self, kind, *_):
        self.is_ending = kind is not None
        if kind and self.server:
            self.server.kill()
        self.listener.shutdown(socket.SHUT_RDWR)
        self.listener.close()
        self.thread.join()
        os.remove(self.path)


def most_of(process):
    """The most bytes of memory that a process has had, without page cache."""
    try:
        with open(f"/proc/{process}/status", encoding="ascii") as file:
            lines = [line for line in file if line.startswith("VmHWM")]
    except OSError:
        return 0
    return int(lines[0].split()[1]) * 1024 if lines else 0


def fio(server, folder, place, words):
    """Runs fio on a range. How many bytes it has written, and how many it has verified."""
    status, text = run("fio", "--name=range", "--thread", "--ioengine=nbd", f"--uri={server.uri}", "--rw=randwrite",
                       f"--offset={place.offset}", f"--size={place.length}", "--verify=crc32c", "--verify_fatal=1",
                       "--iodepth=16", f"--randseed={place.seed}", place.size, "--fsync=500", "--output-format=json",
                       *words, cwd=folder, seconds=3600)
    try:
        job = json.loads(text[text.index("{") :])["jobs"][0]
    except (ValueError, KeyError, IndexError):
        job = {"error": 1, "read": {"io_bytes": 0}, "write": {"io_bytes": 0}}
    look(status == 0 and job["error"] == 0, f"fio of {place.told()}: status {status}: {text[-300:]}")
    return job["write"]["io_bytes"], job["read"]["io_bytes"]


class Range:
    """A range that fio writes, and how."""

    def __init__(self, offset, length, chance):
        self.offset, self.length = offset, length
        self.seed, self.size = chance.randrange(1 << 31), chance.choice(SIZES)

    def told(self):
        """What is told of it."""
        return f"{self.length} bytes at {self.offset}, {self.size}, seed {self.seed}"

    def write(self, server, folder):
        """Writes and verifies it."""
        written, verified = fio(server, folder, self, ["--do_verify=1"])
        figures["MiB written"] += written // MIB
        figures["MiB verified"] += verified // MIB
        look(verified >= self.length * 99 // 100, f"{verified} bytes are verified of {self.told()}")

    def verify(self, server, folder):
        """Verifies it again."""
        _, verified = fio(server, folder, self, ["--verify_only=1"])
        figures["MiB verified by a new server"] += verified // MIB
        look(verified >= self.length * 99 // 100, f"{verified} bytes are verified of {self.told()}, by a new server")


def taken(path):
    """How many bytes of the disk a file takes."""
    return os.stat(path).st_blocks * 512


def allowed(folder):
    """How many bytes a file may take."""
    return min(MOST_BYTES, shutil.disk_usage(folder).free // SHARE_OF_FREE)


def make(program, image, shape):
    """Makes a drive."""
    words = [word for name, number in shape.items() for word in (f"--{name}", str(number))]
    succeeds(program, "format", "--image", image, "--in-place", "--block", str(BLOCK), *words, "--transfer", "256",
             "--active", "14", "--open", "14")


def spoil(program, image, place):
    """Puts other bytes into a block of a range."""
    subprocess.run([program, "import", "--image", image, "--first", str(place.offset // BLOCK + 5)],
                   input=b"x" * BLOCK, check=True)


def serve_all(asked, shape, blocks, ranges, is_enough):
    """Lets fio write ranges until it is enough, and verifies the last writes of all by a new server."""
    program, folder, image = asked.program, asked.folder, f"{asked.folder}/drive"
    make(program, image, shape)
    words = [program, "nbd", "--image", image, "--blocks", str(blocks)]
    held = {}
    with Limit(asked.limit * MIB) as limit:
        with Server(limit, folder, words) as server:
            for place in ranges:
                place.write(server, folder)
                held[place.offset] = place
                if is_enough(image):
                    break
        if asked.spoil:
            spoil(program, image, next(iter(held.values())))
        begun = time.monotonic()
        with Server(limit, folder, words) as server:
            for place in held.values():
                place.verify(server, folder)
        figures["seconds of verifying by a new server"] += round(time.monotonic() - begun)
        figures["most MiB under the limit, page cache included"] = limit.peak() // MIB
        figures["kills for want of memory"] += limit.kills()
        look(limit.kills() == 0, "Linux killed a program for want of memory")
    figures["MiB that the file takes"] = taken(image) // MIB
    text = succeeds(program, "check", "--image", image)
    look(text == "the drive can be mounted\n", f"check: {text[-200:]}")
    os.remove(image)


def try_memory(asked, minutes, chance):
    """A large drive, whose ranges are written one after the other."""
    most, until = allowed(asked.folder), time.monotonic() + 60 * minutes
    length = 256 * MIB
    count = most * 8 // 10 // length
    ranges = (Range(number * length, length, chance) for number in range(count))

    def is_enough(image):
        return time.monotonic() > until or taken(image) + 2 * length > most

    serve_all(asked, LARGE, count * length // BLOCK, ranges, is_enough)


def try_full(asked, minutes, chance):
    """A small drive, four fifths of which are written again and again."""
    until = time.monotonic() + 60 * minutes
    most = SMALL["zones"] * SMALL["capacity"] * BLOCK * 8 // 10
    length = 4 * MIB
    count = most // length
    ranges = (Range(chance.randrange(count) * length if turn >= count else turn * length, length, chance)
              for turn in range(1 << 30))

    def is_enough(_):
        return time.monotonic() > until

    serve_all(asked, SMALL, count * length // BLOCK, ranges, is_enough)
