"""A recording: a base image, and a log of what was asked of the disk and of what its user was told.

A recording is a folder with three files:

  base.img    the disk as it was before the first request
  data.bin    the bytes of all writes, one after the other
  log.jsonl   a line of JSON for each thing that happened, in order

The first line of the log is its head, and the last one its end. Between them are requests and marks:

  {"format": "crash log 1", "size": 33554432, "block": 4096, "base": SHA-256 of base.img}
  {"op": "write", "n": 1, "at": 8192, "len": 4096, "data": 0, "fua": false}
  {"op": "mark", "after": 1, "text": "17"}
  {"op": "flush", "n": 2}
  {"op": "zero", "n": 3, "at": 0, "len": 65536, "fua": true}
  {"op": "trim", "n": 4, "at": 65536, "len": 65536, "fua": false}
  {"op": "end", "requests": 4, "marks": 1, "data": SHA-256 of data.bin}

Requests have the numbers 1, 2, 3 .., in the order in which they were answered. Only requests that were answered by
success are here, and no reads. `at` and `len` are bytes; both are multiples of `block`. `data` is where the bytes of a
write begin in data.bin. A mark came after the reply to request `after`, and before the next request was taken. A log
without an end is that of a recorder that was killed: its whole lines count.
"""

import bisect
import hashlib
import json
import os
from typing import NamedTuple

FORMAT = "crash log 1"
CHANGES = ("write", "zero", "trim")


class Request(NamedTuple):
    """A request that was answered. A flush has no place, no length and no data."""

    number: int
    op: str
    at: int = 0
    length: int = 0
    data: int = 0
    fua: bool = False


class Mark(NamedTuple):
    """What the user was told, and how many requests were answered before."""

    after: int
    text: str


class DamagedRecording(Exception):
    """A folder that holds no whole recording."""


def digest_of(path):
    """The SHA-256 of a file."""
    sum_ = hashlib.sha256()
    with open(path, "rb") as file:
        while piece := file.read(1 << 20):
            sum_.update(piece)
    return sum_.hexdigest()


class RecordingWriter:
    """Writes a recording whose folder already has its base image."""

    def __init__(self, folder, block):
        self.folder, self.requests, self.marks, self.bytes = folder, 0, 0, 0
        base = os.path.join(folder, "base.img")
        self.sum = hashlib.sha256()
        self.log = open(os.path.join(folder, "log.jsonl"), "w", encoding="utf-8")
        self.data = open(os.path.join(folder, "data.bin"), "wb")
        self.put(format=FORMAT, size=os.path.getsize(base), block=block, base=digest_of(base))

    def put(self, **fields):
        """Writes a line."""
        self.log.write(json.dumps(fields) + "\n")

    def request(self, op, at=0, length=0, data=b"", fua=False):
        """A request that is about to be answered by success."""
        self.requests += 1
        if op == "flush":
            self.put(op=op, n=self.requests)
        elif op == "write":
            self.put(op=op, n=self.requests, at=at, len=length, data=self.bytes, fua=fua)
            self.data.write(data)
            self.sum.update(data)
            self.bytes += length
        else:
            self.put(op=op, n=self.requests, at=at, len=length, fua=fua)

    def mark(self, text):
        """A line that the user was told."""
        self.marks += 1
        self.put(op="mark", after=self.requests, text=text)

    def end(self):
        """Ends the log."""
        self.put(op="end", requests=self.requests, marks=self.marks, data=self.sum.hexdigest())
        self.data.close()
        self.log.close()


def lines_of(path):
    """The whole lines of a log, as dictionaries."""
    with open(path, encoding="utf-8") as file:
        return [json.loads(line) for line in file if line.endswith("\n")]


def request_of(line):
    """The request of a line."""
    if line["op"] == "flush":
        return Request(line["n"], "flush")
    return Request(line["n"], line["op"], line["at"], line["len"], line.get("data", 0), line["fua"])


class Recording:
    """A recording that was read. Requests are numbered from 1; `requests[k]` is request k + 1."""

    def __init__(self, folder):
        self.folder = os.path.abspath(folder)
        self.log_path = os.path.join(folder, "log.jsonl")
        lines = lines_of(self.log_path)
        if not lines or lines[0].get("format") != FORMAT:
            raise DamagedRecording(f"{self.log_path} is no log of the format {FORMAT!r}")
        self.size, self.block = lines[0]["size"], lines[0]["block"]
        self.requests = [request_of(line) for line in lines[1:] if line["op"] in (*CHANGES, "flush")]
        self.marks = [Mark(line["after"], line["text"]) for line in lines[1:] if line["op"] == "mark"]
        self.has_end = lines[-1].get("op") == "end"
        self.digests = (lines[0]["base"], lines[-1].get("data") if self.has_end else None)
        self.digest = digest_of(self.log_path)
        self.check_numbers()

    def check_numbers(self):
        """Looks whether requests and marks are in order."""
        numbers = [request.number for request in self.requests]
        afters = [mark.after for mark in self.marks]
        if numbers != list(range(1, len(numbers) + 1)) or afters != sorted(afters):
            raise DamagedRecording(f"{self.log_path}: the requests or the marks are not in order")

    def check_digests(self):
        """Looks whether base and data are those of the log. The digest of the log then names them, too."""
        for name, wanted in zip(("base.img", "data.bin"), self.digests):
            if wanted and digest_of(os.path.join(self.folder, name)) != wanted:
                raise DamagedRecording(f"{self.folder}: {name} is not that of the log")

    def open_base(self):
        """The file of the base image."""
        return open(os.path.join(self.folder, "base.img"), "rb")

    def open_data(self):
        """The file with the bytes of the writes."""
        return open(os.path.join(self.folder, "data.bin"), "rb")

    def marks_at(self, cut):
        """What the user had been told when the power failed after so many requests, just before the next one."""
        return [mark.text for mark in self.marks[:bisect.bisect_right([mark.after for mark in self.marks], cut)]]


def bytes_of(request, data):
    """The bytes that a request leaves at its place. Trimmed blocks read as zeros."""
    if request.op != "write":
        return bytes(request.length)
    data.seek(request.data)
    return data.read(request.length)
