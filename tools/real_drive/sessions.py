"""Sessions of the Network Block Device protocol that write blocks, as bytes."""

import struct

REQUEST = 0x25609513
WRITE, LEAVE, FLUSH = 1, 2, 3
# What the server sends before its replies: its greeting, and the size and flags of its export.
GREETING = 18 + 10


def request(kind, number, at=0, data=b""):
    """One request."""
    return struct.pack(">IHHQQI", REQUEST, 0, kind, number, at, len(data)) + data


def session_of(requests):
    """What a client sends that asks for these, and leaves."""
    return struct.pack(">I8sII", 3, b"IHAVEOPT", 1, 0) + b"".join(requests) + request(LEAVE, 0)


def errors_of(answers):
    """The error of each reply, in their order."""
    return [error for _, error, _ in struct.iter_unpack(">IIQ", answers[GREETING:])]
