"""A program at work under strace, and what that shows of its file."""

import os
import random
import re
import signal
import struct
import subprocess
import threading

# All calls by which a file can change, and those that show what the program was sent, and what it answered.
CALLS = (
    "open,openat,creat,close,read,write,writev,pwrite64,pwritev,pwritev2,fdatasync,fsync,sync_file_range,ftruncate,"
    "truncate,fallocate,copy_file_range,sendfile,rename,renameat,renameat2,unlink,unlinkat,dup,dup2,dup3,exit_group"
)
# How long a program may take, in seconds.
PATIENCE = 120


class Wrong(Exception):
    """Something that must not be: the figure that counts it, and what it is."""


class Trace:
    """What one program did under strace: its calls in order, and after which of them which calls of ours were done.

    An event is a pair: ("write", (at, bytes)), ("size", n), ("sync", None), or another one that changes no file. After
    each event `taken` has how many bytes of the input were read, `told` how many were written, `ended` the status, and
    `closed` whether the end of the input was read.
    """

    def __init__(self, path, image):
        self.path, self.image = path, image
        self.events, self.taken, self.told, self.ended, self.closed = [], [], [], [], []
        self.files, self.folders, self.made, self.folder_is_synced = set(), set(), False, False
        self.held = set()
        counts = [0, 0, None, False]
        with open(path, encoding="ascii") as lines:
            for line in lines:
                event = self.event_of(line, counts)
                if event:
                    self.events.append(event)
                    for kept, now in zip((self.taken, self.told, self.ended, self.closed), counts):
                        kept.append(now)

    CALL = re.compile(r"\d+ +(\w+)\((.*)\) += (-?\d+|\?)")

    def event_of(self, line, counts):
        """The event of a line, if it has one."""
        found = self.CALL.match(line)
        if not found:
            if "+++" in line or "---" in line:
                return None
            raise Wrong("other faults", f"a line of strace: {line[:200]}")
        name, words, result = found[1], found[2], found[3]
        if name == "exit_group":
            counts[2] = int(words)
            return ("end", None)
        if result == "?" or int(result) < 0:
            return ("fails", None) if "INJECTED" in line else None
        if name in ("open", "openat", "creat"):
            return self.opened(words, int(result))
        file = words.split(",", 1)[0]
        if name == "close":
            self.files.discard(file)
            self.held.discard(file)
            self.folders.discard(file)
        elif file in self.files:
            return self.changed(name, words, int(result))
        elif name == "fsync" and file in self.folders:
            self.folder_is_synced = True
        elif name in ("read", "write") and file == ("0" if name == "read" else "1"):
            counts[0 if name == "read" else 1] += int(result)
            counts[3] |= name == "read" and result == "0"
            return ("stream", None)
        return None

    def opened(self, words, file):
        """An open: of the image, of the folder that it is in, or of something else. An image that is there is first held
        (O_PATH), and then opened by what /proc calls it."""
        path = unquoted(words.split('"')[1]).decode()
        is_image = path == self.image or path in {f"/proc/self/fd/{held}" for held in self.held}
        if is_image and "O_PATH" in words:
            self.held.add(str(file))
        elif is_image and "O_RDONLY" not in words:
            self.files.add(str(file))
            self.made = "O_CREAT" in words
        elif path == os.path.dirname(self.image):
            self.folders.add(str(file))
        return None

    def changed(self, name, words, result):
        """A call on the image."""
        if name in ("fdatasync", "fsync"):
            return ("sync", None)
        if name == "ftruncate":
            return ("size", int(words.split(",")[1]))
        if name == "pwrite64":
            data = unquoted(words.split('"')[1])[:result]
            if len(data) != result:
                raise Wrong("other faults", "strace shows not all bytes of a write")
            return ("write", (int(words.rsplit(",", 1)[1]), data))
        if name == "fallocate" and "PUNCH_HOLE" in words:
            # The hole reads as zeros.
            at, count = (int(word) for word in words.split(",")[-2:])
            return ("write", (at, bytes(count)))
        if name == "read":
            return None
        raise Wrong("other faults", f"the program changes its file by {name}, which is not replayed")


def unquoted(text):
    """The bytes that strace shows."""
    return bytes.fromhex(text.replace("\\x", ""))


def traced(path, image, words, talk, array, turns, fault=None):
    """Lets a program work under strace. The trace, and the calls that were sent; those that were done are marked."""
    tracing = ["strace", "-f", "-qq", "-xx", "-s", "33554432", "-e", f"trace={CALLS}", "-o", path]
    tracing += ["-e", f"inject={fault}"] if fault else []
    pipe = subprocess.PIPE
    program = subprocess.Popen([*tracing, *words], stdin=pipe, stdout=pipe, stderr=pipe, bufsize=0,
                               start_new_session=True)
    watch = threading.Timer(PATIENCE, lambda: os.killpg(program.pid, signal.SIGKILL))
    watch.start()
    sent = []
    try:
        talk_to(program, talk, array, turns, sent)
        program.stdin.close()
        program.stdin = None
        told = program.communicate()[1].decode(errors="replace")
    except (BrokenPipeError, EOFError) as stopped:
        program.stdin = None
        told = f"{stopped}, {program.communicate()[1].decode(errors='replace')}"
    finally:
        watch.cancel()
        if program.poll() is None:
            os.killpg(program.pid, signal.SIGKILL)
            program.wait()
    if not fault and program.returncode != 0:
        raise Wrong("other faults", f"{' '.join(words)}: status {program.returncode}, {told}")
    return Trace(path, image), sent


def talk_to(program, talk, array, turns, sent):
    """Sends calls turn by turn, and waits for their replies. Raises EOFError where one is refused."""
    write_all(program, talk.hello)
    receive(program, talk.greeting)
    for turn in range(turns):
        is_first = turn == 0 and not any(array)
        calls = [talk.fill(array, random.randrange(1, 256))] if is_first else talk.calls(array)
        if calls is None:
            break
        sent += calls
        array = one_turn(program, talk, array, calls)
    write_all(program, talk.goodbye)


def one_turn(program, talk, array, calls):
    """Sends some calls, and waits for their replies. The array after them."""
    # A pipe holds 64 KiB. Longer replies are taken one by one, so that neither side waits for the other.
    at_once = len(calls) if sum(call.reply for call in calls) < 1 << 15 else 1
    for first in range(0, len(calls), at_once):
        some = calls[first : first + at_once]
        write_all(program, b"".join(call.sent for call in some))
        for call in some:
            judge_reply(talk, call, receive(program, call.reply))
            call.is_done = True
            array = call.after(array)
    return array


def write_all(program, data):
    """Sends bytes."""
    sent = 0
    while sent < len(data):
        sent += program.stdin.write(data[sent:])


def receive(program, count):
    """So many bytes that the program sends."""
    received = b""
    while len(received) < count:
        piece = os.read(program.stdout.fileno(), count - len(received))
        if not piece:
            raise EOFError(f"it ended after {received!r}")
        received += piece
    return received


def judge_reply(talk, call, reply):
    """A reply has to say that the call is done, or else the program has stopped."""
    if talk.name == "nbd":
        magic, error = struct.unpack(">II", reply[:8])
        if magic != 0x67446698 or reply[8:16] != call.sent[8:16]:
            raise Wrong("wrong replies", "not the reply to the next request of nbd")
        if error:
            raise EOFError(f"error {error}")
        if call.wanted is not None and reply[16:] != call.wanted:
            raise Wrong("wrong replies", "a read of nbd")
    elif reply not in (b"", b"ok\n", b"0" * 32 + b"\n"):
        raise EOFError(f"reply {reply!r}")
