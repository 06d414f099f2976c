"""What a program on a drive in its file is sent: calls, and how many bytes answer them.

A call changes some bytes of the array, or adds zeros to it.
"""

import random
import struct


class Call:
    """What is sent for a call, how long its reply is, and what it does. A flush keeps the array that it leaves."""

    def __init__(self, sent, reply, at=0, data=b"", flushes=False, grows=0, wanted=None):
        self.sent, self.reply, self.at, self.data = sent, reply, at, data
        self.flushes, self.grows, self.wanted = flushes, grows, wanted
        self.is_done = False

    def after(self, array):
        """The array after the call."""
        return array[: self.at] + self.data + array[self.at + len(self.data) :] + bytes(self.grows)


class Talk:
    """How a program is called, what it is greeted with, and how calls are sent to it."""

    # Whether its end is a flush that is promised, or may be one, whether its start may be one, and how many bytes it
    # sends before the first reply.
    ends_with_flush, may_flush_at_end, may_flush_at_start, greeting = True, True, False, 0
    hello, goodbye = b"", b""

    def __init__(self, block, most):
        self.block, self.most = block, most

    def words(self, _):
        """The words of the command that follow the name of the file, for so many blocks."""
        return []

    def data(self, blocks):
        """Some blocks of random bytes, now and then of zeros, or of one byte."""
        choice = random.randrange(8)
        if choice == 0:
            return bytes(blocks * self.block)
        return random.randbytes(blocks * self.block) if choice < 6 else random.randbytes(1) * (blocks * self.block)

    def piece(self, array):
        """A random range of blocks, most of them short."""
        blocks = len(array) // self.block
        first = random.randrange(blocks)
        return first, min(random.choice((1, 1, 1, 2, 3, 4, 8, 60)), blocks - first)

    def calls(self, array):
        """The next calls for a disk with this array. None to end."""
        raise NotImplementedError


class Lines(Talk):
    """`run`, with lines that write, trim, clean, mount anew, and grow the disk."""

    name = "run"

    def words(self, blocks):
        return ["--blocks", str(blocks)]

    def fill(self, array, byte):
        """A fill of all blocks."""
        blocks = len(array) // self.block
        return Call(f"fill 0 {blocks} {byte:02x}\n".encode(), 3, 0, bytes([byte]) * len(array))

    def write(self, first, data):
        """A write of whole blocks."""
        return Call(f"write {first} {data.hex()}\n".encode(), 3, first * self.block, data)

    def one(self, array):
        """A random call."""
        first, count = self.piece(array)
        choice = random.randrange(16)
        if choice < 11:
            return self.write(first, self.data(count))
        if choice < 13:
            return Call(f"trim {first} {count}\n".encode(), 3, first * self.block, bytes(count * self.block))
        more = self.most - len(array) // self.block
        if choice == 13 and more:
            more = random.randrange(1, min(more, 5) + 1)
            return Call(f"grow {len(array) // self.block + more}\n".encode(), 3, grows=more * self.block)
        return Call(random.choice((b"remount\n", b"idle 3\n")), 3)

    def calls(self, array):
        found = []
        for _ in range(random.choice((1, 1, 2, 5))):
            found.append(self.one(array))
            array = found[-1].after(array)
        return found


class Session(Lines):
    """`nbd`, with writes, trims and zeros, some of them with FUA, reads, and flushes."""

    name = "nbd"
    ends_with_flush, may_flush_at_start, greeting = False, True, 28
    hello = struct.pack(">I8sII", 3, b"IHAVEOPT", 1, 0)
    READ, WRITE, END, FLUSH, TRIM, ZERO, FUA = 0, 1, 2, 3, 4, 6, 1
    goodbye = struct.pack(">IHHQQI", 0x25609513, 0, END, 0, 0, 0)

    def words(self, _):
        return []

    def ask(self, kind, first=0, blocks=0, data=b"", flags=0):
        """The bytes of a request."""
        return struct.pack(">IHHQQI", 0x25609513, flags, kind, 0, first * self.block, blocks * self.block) + data

    def fill(self, array, byte):
        data = bytes([byte]) * len(array)
        return Call(self.ask(self.WRITE, 0, len(array) // self.block, data), 16, 0, data)

    def one(self, array):
        first, count = self.piece(array)
        at, choice = first * self.block, random.randrange(16)
        flags = self.FUA if random.randrange(7) == 0 else 0
        if choice < 10:
            data = self.data(count)
            return Call(self.ask(self.WRITE, first, count, data, flags), 16, at, data, flushes=bool(flags))
        if choice < 13:
            kind = random.choice((self.TRIM, self.ZERO))
            zeros = bytes(count * self.block)
            return Call(self.ask(kind, first, count, b"", flags), 16, at, zeros, flushes=bool(flags))
        if choice < 15:
            return Call(self.ask(self.FLUSH), 16, flushes=True)
        length = count * self.block
        return Call(self.ask(self.READ, first, count), 16 + length, wanted=array[at : at + length])


class Import(Lines):
    """`import` of blocks from some block on, in pieces."""

    name = "import"

    def __init__(self, block, most):
        super().__init__(block, most)
        self.at = None

    def words(self, blocks):
        self.at = random.choice((0, random.randrange(blocks)))
        return ["--first", str(self.at), *random.choice(([], ["--sparse"]))]

    def fill(self, array, byte):
        self.at = len(array) // self.block
        return Call(bytes([byte]) * len(array), 0, 0, bytes([byte]) * len(array))

    def calls(self, array):
        count = min(random.randrange(1, 80), len(array) // self.block - self.at)
        if count <= 0:
            return None
        data = self.data(count)
        self.at += count
        return [Call(data, 0, (self.at - count) * self.block, data)]


class Entries(Lines):
    """`nvme`, with entries that flush. The array stays the same."""

    name = "nvme"
    ends_with_flush = may_flush_at_end = False
    entry = b"0000000001000000" + 112 * b"0" + b"\n"

    def words(self, _):
        return []

    def calls(self, array):
        return [Call(self.entry, 33, flushes=True)]


class Check(Lines):
    """`check`, which only opens the drive."""

    name = "check"
    ends_with_flush = may_flush_at_end = False

    def words(self, _):
        return []

    def calls(self, array):
        return None
