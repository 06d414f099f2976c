"""A volume of GlusterFS with three replicas, on one machine: one daemon, and a brick on each of three disks."""

import contextlib
import os
import signal
import subprocess
import time

from disks import wait_until
from worlds import ADDRESS, must, run, work

NAME = "three"
SETTINGS = ("network.ping-timeout 5", "storage.health-check-interval 2", "performance.flush-behind off",
            "cluster.quorum-type auto")


def gluster(*words):
    """Gives the daemon an order: its exit status and what it wrote."""
    return run("gluster", "--mode=script", *words)


class Volume:
    """The volume, and a client's mount of it."""

    def __init__(self, disks):
        self.disks, self.tree = disks, os.path.join(work(), "client")
        for name, place in (("lib", "/var/lib/glusterd"), ("log", "/var/log/glusterfs")):
            os.makedirs(os.path.join(work(), name))
            must("mount", "--bind", os.path.join(work(), name), place)
        self.daemon = subprocess.Popen(["glusterd", "-N"], stdout=subprocess.DEVNULL, stderr=subprocess.DEVNULL)
        wait_until(lambda: gluster("peer", "status")[0] == 0, 60, "glusterd answers")
        self.make()
        self.mount()

    def make(self):
        """Makes the volume and starts it."""
        bricks = [f"{ADDRESS}:{disk.tree}/brick" for disk in self.disks]
        time.sleep(3)
        must("gluster", "--mode=script", "volume", "create", NAME, "replica", "3", *bricks, "force")
        for setting in SETTINGS:
            must("gluster", "--mode=script", "volume", "set", NAME, *setting.split())
        must("gluster", "--mode=script", "volume", "start", NAME)

    def mount(self):
        """Mounts the volume as a client."""
        os.makedirs(self.tree)
        must("glusterfs", f"--volfile-server={ADDRESS}", f"--volfile-id={NAME}", "-l", f"{work()}/client.log",
             self.tree)
        wait_until(lambda: os.path.ismount(self.tree), 60, "the volume is mounted")
        wait_until(lambda: self.online() == 3, 60, "all bricks are online")

    def online(self):
        """How many bricks are online."""
        text = gluster("volume", "status", NAME, "detail")[1]
        return sum(line.startswith("Online") and line.split(":")[1].strip() == "Y" for line in text.splitlines())

    def brick_process(self, disk):
        """The process of a brick, or None."""
        folder, part = f"/run/gluster/vols/{NAME}", f"disk{disk.number}-"
        for name in os.listdir(folder):
            if part in name and name.endswith(".pid"):
                with open(os.path.join(folder, name), encoding="ascii") as file:
                    return int(file.read() or 0)
        return None

    def end_brick(self, disk):
        """Ends the process of a brick, if it has not ended by itself."""
        process = self.brick_process(disk)
        if process:
            with contextlib.suppress(ProcessLookupError):
                os.kill(process, signal.SIGKILL)
        time.sleep(0.5)

    def start_bricks(self):
        """Starts the bricks that are not online."""
        gluster("volume", "start", NAME, "force")
        wait_until(lambda: self.online() == 3, 60, "all bricks are online again")

    def unhealed(self):
        """How many entries wait to be healed, over all bricks. None if a brick does not tell."""
        text = gluster("volume", "heal", NAME, "info")[1]
        counts = [line.split(":")[1].strip() for line in text.splitlines() if line.startswith("Number of entries")]
        return sum(map(int, counts)) if len(counts) == 3 and all(count.isdigit() for count in counts) else None

    def heal(self, seconds=240):
        """Heals all. How long that took.

        A full heal is asked for: a disk that failed may have lost names whose making it had answered, and the index of
        what is to be healed has no such names.
        """
        begin = time.monotonic()
        gluster("volume", "heal", NAME)
        gluster("volume", "heal", NAME, "full")
        time.sleep(5)
        wait_until(lambda: self.unhealed() == 0, seconds, "all is healed")
        return time.monotonic() - begin

    def end(self):
        """Unmounts, and stops all."""
        run("umount", self.tree)
        gluster("volume", "stop", NAME, "force")
        self.daemon.terminate()
        self.daemon.wait(30)
