"""Looks at an image after a cut: is it sound, and does it hold all that the user was told?

A check is a function of an image's path, the marks, and an empty folder. It gives a list of faults. It may change the
image. None needs root.
"""

import functools
import os
import re
import shlex
import sqlite3
import subprocess
from typing import NamedTuple

from work_files import DIRECT, data_of, slot_of
from work_raw import SLOTS, commit_of, blocks_of
from work_sqlite import text_of


class Fault(NamedTuple):
    """What is wrong: its kind, in one word or two, and a text."""

    kind: str
    text: str


def run(*words, **settings):
    """Runs a program: its exit status and what it wrote."""
    done = subprocess.run(words, stdin=subprocess.DEVNULL, stdout=subprocess.PIPE, stderr=subprocess.STDOUT,
                          check=False, **settings)
    return done.returncode, done.stdout.decode(errors="replace")


def complaint_of(text):
    """The first line in which e2fsck complains."""
    lines = [line for line in text.splitlines() if line.strip() and not line.startswith(("e2fsck ", "Pass "))]
    return lines[0][:100] if lines else ""


def check_ext4(image, _marks, _folder):
    """Lets e2fsck replay the journal, as a mount would. Then no fault may be left."""
    status, text = run("e2fsck", "-p", image)
    if status < 4:
        status, text = run("e2fsck", "-fn", image)
        if status == 0:
            return []
    run("e2fsck", "-fy", image)
    return [Fault("file system", complaint_of(text))]


def tree_of(image, folder):
    """The files of an ext4 image, copied into a folder."""
    tree = os.path.join(folder, "tree")
    os.mkdir(tree)
    run("debugfs", "-R", f"rdump / {tree}", image)
    return tree


def bytes_at(*path):
    """The bytes of a file. None are there if it is missing."""
    try:
        with open(os.path.join(*path), "rb") as file:
            return file.read()
    except OSError:
        return b""


def over_ext4(look):
    """A check of files on ext4, out of one that looks at a tree."""
    @functools.wraps(look)
    def check(image, marks, folder):
        return check_ext4(image, marks, folder) + look(tree_of(image, folder), marks)
    return check


def check_tree_of_files(tree, marks):
    """Each number that was told is in the index, and its file has its bytes."""
    index = bytes_at(tree, "index").decode(errors="replace").split()
    for mark in marks:
        if mark not in index:
            return [Fault("lost", f"index line {mark}")]
        if bytes_at(tree, f"d{mark}") != data_of(int(mark)):
            return [Fault("lost", f"file d{mark}")]
    return []


check_files = over_ext4(check_tree_of_files)


@over_ext4
def check_direct(tree, marks):
    """Each slot that was told has its bytes."""
    slots = bytes_at(tree, DIRECT)
    for mark in marks:
        wanted = slot_of(int(mark))
        first = int(mark) * len(wanted)
        if slots[first:first + len(wanted)] != wanted:
            return [Fault("lost", f"slot {mark}")]
    return []


@over_ext4
def check_sqlite(tree, marks):
    """The database is sound, and has the rows 0, 1, 2 .. at least up to the last one that was told."""
    if not os.path.exists(os.path.join(tree, "db")):
        return [Fault("lost", "the database")] if marks else []
    disk = sqlite3.connect(os.path.join(tree, "db"))
    try:
        sound = disk.execute("PRAGMA integrity_check").fetchone()[0]
        if sound != "ok":
            return [Fault("corrupt", sound.splitlines()[0][:100])]
        return faults_of_rows(disk.execute("SELECT i, a FROM t ORDER BY i").fetchall(), marks)
    except sqlite3.Error as fault:
        return [Fault("corrupt", str(fault))] if marks else []
    finally:
        disk.close()


def faults_of_rows(rows, marks):
    """What is wrong with rows of numbers and texts."""
    if rows != [(number, text_of(number)) for number in range(len(rows))]:
        return [Fault("corrupt", "the rows are not those of the transactions")]
    if len(rows) < len(marks):
        return [Fault("lost", f"rows: {len(marks)} told, {len(rows)} found")]
    return []


def check_raw(image, marks, _folder):
    """A slot whose commit block is there has its data, and each slot that was told is there."""
    disk, faults = bytes_at(image), []
    for number in range(SLOTS):
        data, commit = blocks_of(number), commit_of(number)
        first = number * (len(data) + len(commit))
        middle = first + len(data)
        is_committed, is_whole = disk[middle:middle + len(commit)] == commit, disk[first:middle] == data
        if is_committed and not is_whole:
            faults.append(Fault("torn", f"slot {number} is committed, and its data are not there"))
        if str(number) in marks and not is_committed:
            faults.append(Fault("lost", f"slot {number}"))
    return faults


@over_ext4
def check_postgres(tree, marks):
    """The server repairs its files. Then its tables and indexes are sound, with each row that was told."""
    from check_postgres import faults_of_cluster
    return [Fault(*fault) for fault in faults_of_cluster(os.path.join(tree, "cluster"), marks)]


def fault_of(line):
    """The fault of a line that a command has printed."""
    match = re.match(r"([a-z][a-z ]{0,30}): (.*)", line)
    return Fault(*match.groups()) if match else Fault("fault", line)


def command_check(words):
    """A check by a command of the user. It gets the paths of the image and of a file with the marks.

    Each line on its standard output is a fault; small letters before a colon are the kind. If it ends by another status
    than 0 and prints nothing there, that is a fault, too.
    """
    def check(image, marks, folder):
        told = os.path.join(folder, "marks")
        with open(told, "w", encoding="utf-8") as file:
            file.writelines(f"{mark}\n" for mark in marks)
        done = subprocess.run([*shlex.split(words), image, told], cwd=folder, stdin=subprocess.DEVNULL,
                              stdout=subprocess.PIPE, stderr=subprocess.PIPE, text=True, errors="replace", check=False)
        faults = [fault_of(line) for line in done.stdout.splitlines()]
        if done.returncode and not faults:
            return [Fault("status", f"{done.returncode} {done.stderr.strip()[-100:]}")]
        return faults
    return check


CHECKS = {
    "ext4": check_ext4, "files": check_files, "direct": check_direct, "sqlite": check_sqlite,
    "postgres": check_postgres, "raw": check_raw,
}


def check_of(name, command):
    """The check of a name or of a command."""
    return command_check(command) if command else CHECKS[name]
