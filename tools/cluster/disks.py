"""A disk of zonedisk for an engine: a drive in a file, served through nbdfuse and a loop device, with ext4 on it."""

import os
import signal
import subprocess
import time

from worlds import Failed, must, note_loop, run, work

BLOCK, ZONE = 4096, 1024
# The part of the drive's blocks that the disk takes.
PART = 0.7


class Disk:
    """A drive in a file, and what shows it as a mounted folder."""

    def __init__(self, number, mib, program):
        self.number, self.program = number, program
        self.home = os.path.join(work(), f"disk{number}")
        self.image, self.place, self.tree = (os.path.join(self.home, name) for name in ("drive", "fuse", "tree"))
        self.blocks = (mib << 20) // BLOCK
        for folder in (self.home, self.place, self.tree):
            os.makedirs(folder)
        zones = int(self.blocks / PART / ZONE) + 4
        must(program, "format", "--image", self.image, "--block", BLOCK, "--zones", zones, "--size", ZONE, "--capacity",
             ZONE, "--transfer", 256, "--active", 8, "--open", 8)
        self.loop = self.fuse = self.server = None

    def mount_commands(self):
        """How many commands a mount of the drive sends: `--stop-after` counts them, too."""
        done = subprocess.run([self.program, "nbd", "--image", self.image, "--read-only", "--statistics"], text=True,
                              stdin=subprocess.DEVNULL, stdout=subprocess.DEVNULL, stderr=subprocess.PIPE, check=True)
        kinds = ("reads", "reports", "appends", "finishes", "resets", "closes", "other")
        return sum(int(line.split()[-1]) for line in done.stderr.splitlines() if line.startswith(kinds))

    def start(self, stop_after=None):
        """Serves the drive. It stops after so many commands more, with two blocks of an Append written."""
        more = []
        if stop_after is not None:
            more = ["--stop-after", str(self.mount_commands() + stop_after), "--tear", "2"]
        with open(os.path.join(self.home, "told"), "a", encoding="ascii") as told:
            words = ["nbdfuse", self.place, "--command", self.program, "nbd", "--image", self.image, "--blocks",
                     str(self.blocks), *more]
            self.fuse = subprocess.Popen(words, stdin=subprocess.DEVNULL, stdout=told, stderr=told)
        file = os.path.join(self.place, "nbd")
        wait_until(lambda: os.path.exists(file), 120, f"disk {self.number} is served")
        self.server = int(must("pgrep", "-P", self.fuse.pid).split()[0])
        self.loop = must("losetup", "--find", "--show", "--sector-size", BLOCK, file)
        note_loop(self.loop)

    def make_files(self):
        """Makes the file system and mounts it."""
        must("mkfs.ext4", "-q", "-F", "-b", BLOCK, "-J", "size=4", self.loop)
        must("mount", self.loop, self.tree)

    def mount_again(self):
        """Repairs the file system and mounts it. Whether e2fsck found nothing that it could not repair."""
        status, _ = run("e2fsck", "-fy", self.loop, seconds=300)
        must("mount", self.loop, self.tree)
        return status <= 1

    def kill(self):
        """Kills the server."""
        os.kill(self.server, signal.SIGKILL)

    def is_stopped(self):
        """Whether the drive has stopped for the file system: it takes no more syncs."""
        path = os.path.join(self.tree, "probe")
        try:
            with open(path, "w", encoding="ascii") as file:
                file.write("probe")
                file.flush()
                os.fsync(file.fileno())
            return False
        except OSError:
            return True

    def end(self):
        """Unmounts, and gives back the loop device and nbdfuse. A server that lives saves its drive."""
        if run("umount", self.tree)[0] != 0:
            run("umount", "-l", self.tree)
        run("losetup", "-d", self.loop)
        for _ in range(100):
            if run("fusermount3", "-u", self.place)[0] == 0:
                break
            time.sleep(0.1)
        else:
            run("umount", "-l", self.place)
        try:
            self.fuse.wait(120)
        except subprocess.TimeoutExpired:
            self.fuse.kill()
            self.fuse.wait()

    def check(self):
        """What `check` says of the drive."""
        return run(self.program, "check", "--image", self.image)[1].strip()


def wait_until(holds, seconds, what):
    """Waits until something holds. How long that took."""
    begin = time.monotonic()
    while not holds():
        if time.monotonic() - begin > seconds:
            raise Failed(f"not after {seconds} s: {what}")
        time.sleep(0.2)
    return time.monotonic() - begin
