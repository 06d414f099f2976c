"""Bursts for `zonedisk nbd`: 1 to 64 requests that are sent by one write, and which of them may be done together."""

import random
import struct

from calls import Call, Session

# What a group has at most: requests, bytes of data, and bytes with the heads, which lie in the program's buffer.
MOST, MOST_DATA, BUFFER, HEAD = 64, 1 << 20, 1 << 16, 28
# How many bytes the reads of a burst show at most. So no side waits until the other one reads.
MOST_SHOWN = 24 << 10
FUA, NO_HOLE = 1, 2
EINVAL, ENOSPC = 22, 28


class Request(Call):
    """A request: which blocks it changes, in their order, whether it may join a group, and by what it is refused."""

    def __init__(self, sent, reply=16, names=range(0), joins=False, error=0, **more):
        super().__init__(sent, reply, **more)
        self.names, self.joins, self.error = names, joins, error

    def cookie(self):
        """The eight bytes by which a reply names it."""
        return self.sent[8:16]

    def told(self):
        """The request in words."""
        flags, kind, _, at, length = struct.unpack(">HHQQI", self.sent[4:HEAD])
        name = {0: "READ", 1: "WRITE", 3: "FLUSH", 4: "TRIM", 6: "WRITE_ZEROES"}.get(kind, f"command {kind}")
        return f"{name} flags {flags} at byte {at}, {length} bytes{', to be refused' if self.error else ''}"


class Places:
    """Where the requests of a burst begin, and how many blocks they have."""

    STYLES = ("apart", "apart", "in order", "in a window", "anywhere")

    def __init__(self, blocks):
        self.blocks, self.style = blocks, random.choice(self.STYLES)
        self.longest = min(random.choice((1, 1, 1, 4, 8, 32)), blocks)
        self.width = min(random.choice((4, 20, 80)), blocks)
        self.at, self.base, self.taken = random.randrange(blocks), random.randrange(blocks - self.width + 1), set()

    def any(self):
        """A first block, and how many."""
        count = random.randrange(1, self.longest + 1)
        if self.style == "in order":
            first = self.at if self.at + count <= self.blocks else 0
            self.at = first + count
        elif self.style == "in a window":
            first = self.base + random.randrange(self.width)
        else:
            first = random.randrange(self.blocks)
        return first, min(count, self.blocks - first)

    def next(self):
        """The place of the next request. Those that are apart share no block, if such a place is found soon."""
        for _ in range(30):
            first, count = self.any()
            if self.style != "apart" or self.taken.isdisjoint(range(first, first + count)):
                break
        self.taken.update(range(first, first + count))
        return first, count


class Bursts(Session):
    """`nbd`, with bursts of requests. With `refusals` some of them are to be refused."""

    def __init__(self, block, most, refusals=False):
        super().__init__(block, most)
        self.refusals, self.cookies = refusals, 0

    def ask(self, kind, first=0, blocks=0, data=b"", flags=0):
        """The bytes of a request."""
        self.cookies += 1
        head = (0x25609513, flags, kind, self.cookies, first * self.block, blocks * self.block)
        return struct.pack(">IHHQQI", *head) + data

    def change(self, kind, first, data, flags=0):
        """A WRITE, a TRIM or a WRITE_ZEROES, after which the blocks have these data."""
        count = len(data) // self.block
        sent = self.ask(kind, first, count, data if kind == self.WRITE else b"", flags)
        return Request(sent, names=range(first, first + count), joins=flags == 0, at=first * self.block, data=data,
                       flushes=bool(flags & FUA))

    def fill(self, array, byte):
        return self.change(self.WRITE, 0, bytes([byte]) * len(array))

    def stamped(self, count):
        """Blocks that are like no others, and now and then zeros."""
        if random.randrange(16) == 0:
            return bytes(count * self.block)
        return b"".join(random.randbytes(16) * (self.block // 16) for _ in range(count))

    def one_change(self, first, count, flags):
        """A change of these blocks. Two of three are WRITEs."""
        kind = random.choice((self.WRITE, self.WRITE, self.WRITE, self.WRITE, self.TRIM, self.ZERO))
        if kind == self.ZERO and random.randrange(4) == 0:
            flags |= NO_HOLE
        return self.change(kind, first, self.stamped(count) if kind == self.WRITE else bytes(count * self.block), flags)

    def refused(self, blocks):
        """A request that is refused before the disk is asked: past the end, not aligned, or with an unknown flag."""
        data = self.stamped(2)
        past, within = blocks - random.randrange(2), random.randrange(blocks)
        choice = random.randrange(5)
        if choice == 0:
            return Request(self.ask(self.WRITE, past, 2, data), error=ENOSPC)
        if choice == 1:
            return Request(self.ask(self.TRIM, past, 2), error=EINVAL)
        if choice == 2:
            return Request(self.ask(self.ZERO, past, 2), error=ENOSPC)
        if choice == 3:
            return Request(self.ask(self.WRITE, within, 2, data, 16), error=EINVAL)
        sent = bytearray(self.ask(self.TRIM, within, 1))
        sent[23] ^= 1
        return Request(bytes(sent), error=EINVAL)

    def other(self, array, place, shown):
        """A request that ends a group."""
        choice = random.randrange(8)
        if choice < 3:
            return self.one_change(*place, FUA)
        if choice < 5:
            return Request(self.ask(self.FLUSH), flushes=True)
        if choice == 5 and self.refusals:
            return self.refused(len(array) // self.block)
        first, length = place[0], min(place[1] * self.block, max(MOST_SHOWN - shown, self.block))
        return self.look(array, first, length // self.block)

    def look(self, array, first, count):
        """A READ that shows what an array has."""
        at, length = first * self.block, count * self.block
        return Request(self.ask(self.READ, first, count), 16 + length, wanted=bytes(array[at : at + length]))

    def calls(self, array):
        """The requests of a burst, for a disk with this array."""
        array, found, shown = bytearray(array), [], 0
        places, others = Places(len(array) // self.block), random.choice((0, 0, 0, 0.05, 0.3))
        for _ in range(random.choice((1, 2, 3, 8, 24, MOST, MOST, random.randrange(1, MOST + 1)))):
            is_other = random.random() < others and shown < MOST_SHOWN
            place = places.next()
            request = self.other(array, place, shown) if is_other else self.one_change(*place, 0)
            shown += request.reply - 16
            array[request.at : request.at + len(request.data)] = request.data
            found.append(request)
        return found


def group_at_most(requests, listed):
    """How many of the first of these requests may be done together, at most, where a list names so many blocks. One at
    least: a request that joins no group is done alone."""
    blocks, data, sent = set(), 0, 0
    for number, request in enumerate(requests[:MOST]):
        names, size = set(request.names), len(request.sent) - HEAD
        data, sent = data + size, sent + HEAD + size
        is_full = data > MOST_DATA or sent > BUFFER or len(blocks) + len(names) > listed
        if not request.joins or is_full or not blocks.isdisjoint(names):
            return max(number, 1)
        blocks |= names
    return min(len(requests), MOST)
