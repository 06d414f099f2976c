"""Compares the images that the program leaves with what a loss of power may leave, on random recordings of small disks.

What may be left is said here by a slow definition. It keeps, for each block, each of its states since the one that is
durable. It shares no code with the program.
"""

import random

from cutters import Cut, Cutter, pending_counts
from recordings import Recording, RecordingWriter
from sweeps import scratch_folder

BLOCKS, REQUESTS = 6, 20
# How many seeds are tried at one place, to see that each state of a block is left by one of them.
SEEDS = 40


class States:
    """For each block, each whole state since the one that is durable, which comes first."""

    def __init__(self, base, block):
        self.block = block
        self.states = [[piece] for piece in self.pieces(base)]

    def pieces(self, data):
        """The blocks of some bytes."""
        return [data[first:first + self.block] for first in range(0, len(data), self.block)]

    def change(self, at, data, forced):
        """Whole blocks are written."""
        for number, piece in enumerate(self.pieces(data), at // self.block):
            self.states[number] = [piece] if forced else self.states[number] + [piece]

    def flush(self):
        """All is made durable."""
        self.states = [[states[-1]] for states in self.states]

    def copy(self):
        """These states, as they are."""
        copied = States(b"", self.block)
        copied.states = [list(states) for states in self.states]
        return copied

    def pending(self):
        """How many blocks are pending."""
        return sum(len(states) - 1 for states in self.states)

    def newest(self):
        """The disk as a reader sees it."""
        return [states[-1] for states in self.states]

    def durable(self):
        """The disk if all is lost that may be lost."""
        return [states[0] for states in self.states]


def random_request(chance, block):
    """A random request: its kind, place, bytes, and whether it is forced."""
    kind = chance.choices(("write", "zero", "trim", "flush"), (8, 1, 1, 2))[0]
    first = chance.randrange(BLOCKS)
    length = chance.randint(1, min(3, BLOCKS - first)) * block
    data = chance.randbytes(length) if kind == "write" else bytes(length)
    return kind, first * block, data, chance.random() < 0.2


def random_recording(folder, chance):
    """A recording of random requests in a folder, and the states after 0, 1, 2 .. of them."""
    block = chance.choice((512, 4096))
    base = chance.randbytes(BLOCKS * block)
    with open(f"{folder}/base.img", "wb") as file:
        file.write(base)
    writer, states = RecordingWriter(folder, block), [States(base, block)]
    for number in range(REQUESTS):
        kind, at, data, forced = random_request(chance, block)
        writer.request(kind, at, len(data), data, forced)
        writer.mark(str(number))
        states.append(states[-1].copy())
        if kind == "flush":
            states[-1].flush()
        else:
            states[-1].change(at, data, forced)
    writer.end()
    return Recording(folder), states


class Look:
    """A recording, its states, and what the program leaves of it."""

    def __init__(self, folder, program, chance, early):
        self.recording, self.states = random_recording(folder, chance)
        self.recording.check_digests()
        self.cutter, self.path = Cutter(self.recording, program, folder), f"{folder}/image"
        self.cutter.prepare()
        self.early, self.faults, self.cuts = early, [], 0

    def holds(self, is_true, at, text):
        """Remembers what does not hold."""
        if not is_true:
            self.faults.append(f"cut after {at} requests: {text}")

    def image(self, at, seed=None, odds=50):
        """The blocks that a cut leaves, and what was told. With `early` one request too few is sent."""
        self.cuts += 1
        told = self.cutter.write_image(Cut(max(at - self.early, 0), seed, odds), self.path)
        with open(self.path, "rb") as file:
            return self.states[at].pieces(file.read()), told

    def look_at(self, at, seed):
        """Looks at one place: a seed, the same seed again, odds that lose nothing and all, and a drive that keeps."""
        states = self.states[at]
        left, told = self.image(at, seed)
        self.holds(all(piece in known for piece, known in zip(left, states.states)), at, "a block was never written")
        self.holds((left, told) == self.image(at, seed), at, "a seed does not say all")
        self.holds(told.pending == states.pending(), at, "the number of pending blocks differs")
        self.holds(self.image(at, seed, 0) == (states.newest(), (states.pending(), 0)), at, "odds 0 lose a block")
        self.holds(self.image(at, seed, 100) == (states.durable(), (states.pending(),) * 2), at, "odds 100 keep one")
        self.holds(self.image(at)[0] == states.newest(), at, "an answered write is not kept")
        self.holds(self.recording.marks_at(at) == [str(number) for number in range(at)], at, "the marks differ")

    def look_for_states(self, at, chance):
        """Looks whether each state of each block is left by one of many seeds, where a block has few of them."""
        seen = [set() for _ in range(BLOCKS)]
        for _ in range(SEEDS):
            for number, piece in enumerate(self.image(at, chance.randrange(1 << 48))[0]):
                seen[number].add(piece)
        few = [(set(known), found) for known, found in zip(self.states[at].states, seen) if len(known) < 4]
        rare = [known for known, found in few if not known <= found]
        self.holds(not rare, at, "a state is never left")

    def look_at_some(self, chance):
        """Looks at four random places, and for all states at one."""
        for at in chance.choices(range(REQUESTS + 1), k=4):
            self.look_at(at, chance.randrange(1 << 48))
        self.look_for_states(chance.randrange(REQUESTS + 1), chance)
        self.holds(pending_counts(self.recording) == [one.pending() for one in self.states], 0, "counts differ")


def look_at(program, count, seed, early):
    """Random recordings, so many: how many cuts were made, and what was wrong."""
    chance, faults, cuts = random.Random(seed), [], 0
    for _ in range(count):
        with scratch_folder("crash_test.") as folder:
            look = Look(folder, program, chance, early)
            look.look_at_some(chance)
            faults, cuts = faults + look.faults, cuts + look.cuts
    return cuts, faults
