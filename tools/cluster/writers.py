"""Writes files and syncs each one, and remembers what was acknowledged."""

import hashlib
import os
import random
import threading
import time


class Writer(threading.Thread):
    """Writes files by their names, new ones and old ones anew, until it is told to end.

    A file is acknowledged when its `fsync` has returned. While it is written anew, and after a failure, nobody is
    promised anything of it.
    """

    def __init__(self, tree, names, most, seed):
        super().__init__(daemon=True)
        self.tree, self.names, self.most, self.random = tree, names, most, random.Random(seed)
        self.acknowledged, self.writes, self.faults, self.slowest, self.ending = {}, 0, [], 0.0, False

    def write(self, name):
        """Writes one file."""
        data = self.random.randbytes(self.random.randrange(1, self.most))
        self.acknowledged.pop(name, None)
        with open(os.path.join(self.tree, name), "wb") as file:
            file.write(data)
            file.flush()
            os.fsync(file.fileno())
        self.acknowledged[name] = hashlib.sha256(data).hexdigest()
        self.writes += 1

    def run(self):
        while not self.ending:
            begin = time.monotonic()
            try:
                self.write(f"f{self.random.randrange(self.names)}")
            except OSError as fault:
                self.faults.append(str(fault))
                time.sleep(0.2)
            self.slowest = max(self.slowest, time.monotonic() - begin)

    def end(self):
        """Lets the last write end."""
        self.ending = True
        self.join(120)

    def figures(self):
        """What was done so far, and the slowest write since the last figures."""
        slowest, self.slowest = self.slowest, 0.0
        return (f"{self.writes} writes, {len(self.acknowledged)} files acknowledged, {len(self.faults)} faults, "
                f"slowest {slowest:.1f} s")

    def missing(self, tree):
        """The acknowledged files that a folder does not have, with their bytes."""
        return [name for name, digest in self.acknowledged.items() if digest_at(tree, name) != digest]


def digest_at(tree, name):
    """The SHA-256 of a file, or what happened instead."""
    try:
        with open(os.path.join(tree, name), "rb") as file:
            return hashlib.sha256(file.read()).hexdigest()
    except OSError as fault:
        return str(fault)
