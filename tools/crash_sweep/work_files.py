#!/usr/bin/env python3
"""Writes files in the folder CRASH_TREE, and tells each one that is durable.

usage: work_files.py synced|forgotten|direct|direct-forgotten

  synced            a file of data, its fsync, a line in an index, its fsync, the fsync of the folder
  forgotten         the same, but the fsync of the data is forgotten
  direct            slots of a file that was made before, by O_DIRECT, each followed by fdatasync
  direct-forgotten  the same without fdatasync: O_DIRECT passes the page cache, but not the disk's cache
"""

import mmap
import os
import sys

FILES, SLOTS, BLOCK, DIRECT = 60, 100, 4096, "slots"


def data_of(number):
    """The bytes of a file."""
    return b"data %06d " % number * 300


def slot_of(number):
    """The bytes of a slot."""
    return (b"slot %06d " % number).ljust(BLOCK, b"x")


def sync_folder(path):
    """Makes the names in a folder durable."""
    folder = os.open(path, os.O_RDONLY)
    os.fsync(folder)
    os.close(folder)


def write_files(tree, is_synced):
    """Writes files and their index."""
    index = os.open(os.path.join(tree, "index"), os.O_CREAT | os.O_WRONLY | os.O_APPEND, 0o644)
    for number in range(FILES):
        file = os.open(os.path.join(tree, f"d{number}"), os.O_CREAT | os.O_WRONLY, 0o644)
        os.write(file, data_of(number))
        if is_synced:
            os.fsync(file)
        os.close(file)
        os.write(index, b"%d\n" % number)
        os.fsync(index)
        sync_folder(tree)
        print(number, flush=True)


def write_slots(tree, is_synced):
    """Writes slots in place."""
    file = os.open(os.path.join(tree, DIRECT), os.O_RDWR | os.O_DIRECT)
    page = mmap.mmap(-1, BLOCK)
    for number in range(SLOTS):
        page[:] = slot_of(number)
        os.pwrite(file, page, number * BLOCK)
        if is_synced:
            os.fdatasync(file)
        print(number, flush=True)


def make_slots(tree):
    """Makes the file of the slots, before anything is recorded."""
    with open(os.path.join(tree, DIRECT), "wb") as file:
        file.write(bytes(SLOTS * BLOCK))
        file.flush()
        os.fsync(file.fileno())


def main():
    tree, mode = os.environ["CRASH_TREE"], sys.argv[1]
    if mode == "make-slots":
        make_slots(tree)
    elif mode.startswith("direct"):
        write_slots(tree, mode == "direct")
    else:
        write_files(tree, mode == "synced")


if __name__ == "__main__":
    main()
