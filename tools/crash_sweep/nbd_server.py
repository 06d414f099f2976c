"""The Network Block Device protocol as a server speaks it: the handshake, requests, and simple replies.

It is the fixed newstyle of doc/proto.md of the NBD project, with one export, whatever its name.
"""

import struct

GREETING, REPLY_MAGIC, REQUEST_MAGIC, ANSWER_MAGIC = b"NBDMAGICIHAVEOPT", 0x3E889045565A9, 0x25609513, 0x67446698
FIXED, NO_ZEROES = 1, 2
EXPORT_NAME, ABORT, LIST, INFO, GO = 1, 2, 3, 6, 7
ACK, SERVER, SHOWN_INFO, UNSUPPORTED = 1, 2, 3, (1 << 31) + 1
READ, WRITE, DISCONNECT, FLUSH, TRIM, ZEROES = 0, 1, 2, 3, 4, 6
# What is offered: flags, FLUSH, FUA, TRIM, WRITE_ZEROES.
OFFERED = 1 | 4 | 8 | 32 | 64
FUA = 1
INVALID, NO_SPACE = 22, 28
MOST = 32 << 20


class Gone(Exception):
    """The client is gone, or does not speak the protocol."""


def receive(client, count):
    """So many bytes from the client."""
    parts = []
    while count:
        part = client.recv(min(count, 1 << 20))
        if not part:
            raise Gone("the client is gone")
        parts.append(part)
        count -= len(part)
    return b"".join(parts)


def answer_option(client, option, kind, data=b""):
    """Sends one reply to an option."""
    client.sendall(struct.pack(">QIII", REPLY_MAGIC, option, kind, len(data)) + data)


def show_export(client, option, size, block):
    """Tells the size and the sizes of requests."""
    answer_option(client, option, SHOWN_INFO, struct.pack(">HQH", 0, size, OFFERED))
    answer_option(client, option, SHOWN_INFO, struct.pack(">HIII", 3, block, 4096, MOST))
    answer_option(client, option, ACK)


def shake_hands(client, size, block):
    """Speaks until the client may send requests. Whether it will."""
    client.sendall(GREETING + struct.pack(">H", FIXED | NO_ZEROES))
    wishes = struct.unpack(">I", receive(client, 4))[0]
    while True:
        magic, option, length = struct.unpack(">8sII", receive(client, 16))
        if magic != b"IHAVEOPT" or length > MOST:
            raise Gone("the client sends no option")
        receive(client, length)
        if option == EXPORT_NAME:
            client.sendall(struct.pack(">QH", size, OFFERED) + (b"" if wishes & NO_ZEROES else bytes(124)))
            return True
        if option in (INFO, GO):
            show_export(client, option, size, block)
        elif option == LIST:
            answer_option(client, option, SERVER, bytes(4))
            answer_option(client, option, ACK)
        elif option == ABORT:
            answer_option(client, option, ACK)
        else:
            answer_option(client, option, UNSUPPORTED)
        if option in (GO, ABORT):
            return option == GO


def next_request(client):
    """The next request: its flags, command, cookie, place, length and data."""
    magic, flags, command, cookie, at, length = struct.unpack(">IHHQQI", receive(client, 28))
    if magic != REQUEST_MAGIC or (command == WRITE and length > MOST):
        raise Gone("the client sends no request")
    return flags, command, cookie, at, length, receive(client, length) if command == WRITE else b""


def answer(client, cookie, error=0, data=b""):
    """Sends a reply."""
    client.sendall(struct.pack(">IIQ", ANSWER_MAGIC, error, cookie) + data)
