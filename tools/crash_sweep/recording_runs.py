"""Records a command that uses a disk: over NBD itself, or as files of a file system that is mounted from it.

The command's standard output becomes marks. What it prints is what its user was told. It may also write lines to the
fifo that `CRASH_MARKS` names.

Files are mounted through nbdfuse and a loop device, which needs root. A loop device knows no FUA: Linux sends a FLUSH
after such a write. So a recording of files has no request with FUA.
"""

import contextlib
import os
import shutil
import subprocess
import sys
import time

HERE = os.path.dirname(os.path.abspath(__file__))
# How long a command may take, and how long it may tidy up.
SECONDS, PATIENCE = 600, 60
# What makes a file system in an image, if nothing else is asked for.
MAKE = "mkfs.ext4 -q -F -b 4096 -J size=4"


class CannotRecord(Exception):
    """A step before or after the command failed."""


def must(*words, **settings):
    """Runs a program that has to succeed. What it wrote."""
    done = subprocess.run(words, stdin=subprocess.DEVNULL, stdout=subprocess.PIPE, stderr=subprocess.STDOUT, text=True,
                          check=False, **settings)
    if done.returncode != 0:
        raise CannotRecord(f"{' '.join(words)} ended by {done.returncode}: {done.stdout[-500:]}")
    return done.stdout.strip()


def make_base(folder, base, size):
    """Puts the base image into the folder: a copy, or zeros."""
    os.makedirs(folder)
    path = os.path.join(folder, "base.img")
    if base:
        must("cp", "--sparse=always", base, path)
    else:
        must("truncate", "-s", str(size), path)
    return path


@contextlib.contextmanager
def loop_of(path, block):
    """A loop device over a file."""
    loop = must("losetup", "--find", "--show", "--sector-size", str(block), path)
    try:
        yield loop
    finally:
        must("losetup", "-d", loop)


@contextlib.contextmanager
def mounted(loop, tree, options):
    """A file system that is mounted from a loop device."""
    os.makedirs(tree)
    try:
        must("mount", "-o", options, loop, tree)
        try:
            yield tree
        finally:
            patiently("umount", tree)
    finally:
        os.rmdir(tree)


def patiently(*words):
    """Runs a program that may have to wait until others let go."""
    for _ in range(50):
        if subprocess.run(words, stderr=subprocess.DEVNULL, check=False).returncode == 0:
            return
        time.sleep(0.2)
    must(*words)


def wait_for(path, seconds=30):
    """Waits until a file is there."""
    end = time.monotonic() + seconds
    while not os.path.exists(path):
        if time.monotonic() > end:
            raise CannotRecord(f"{path} does not appear")
        time.sleep(0.02)


@contextlib.contextmanager
def recorder(folder, block):
    """The recorder, while it serves. Afterwards the log is whole."""
    words = [sys.executable, "-B", os.path.join(HERE, "recorder.py"), folder, str(block)]
    process = subprocess.Popen(words, stdin=subprocess.PIPE, stdout=subprocess.PIPE, text=True, start_new_session=True)
    try:
        if process.stdout.readline() != "ready\n":
            raise CannotRecord("the recorder does not start")
        yield os.path.join(folder, "disk.sock")
    finally:
        process.stdin.close()
        status = process.wait(60)
        for name in ("disk.sock", "marks"):
            os.unlink(os.path.join(folder, name))
    if status != 0:
        raise CannotRecord(f"the recorder ended by {status}")


@contextlib.contextmanager
def nbdfuse_of(sock, place):
    """A file that shows the served disk."""
    os.makedirs(place)
    process = subprocess.Popen(["nbdfuse", place, "--unix", sock], start_new_session=True)
    try:
        wait_for(os.path.join(place, "nbd"))
        yield os.path.join(place, "nbd")
    finally:
        patiently("fusermount3", "-u", place)
        process.wait(60)
        os.rmdir(place)


def end_process(process):
    """Ends a process that has not ended. It may tidy up before."""
    process.terminate()
    try:
        process.wait(PATIENCE)
    except subprocess.TimeoutExpired:
        process.kill()
        process.wait()


def run_patiently(command, told, **places):
    """Runs a command in this world and these places, and lets it tidy up where this one is ended."""
    process = subprocess.Popen(command, stdin=subprocess.DEVNULL, stdout=told, env={**os.environ, **places},
                               start_new_session=True)
    try:
        status = process.wait(SECONDS)
    except subprocess.TimeoutExpired as fault:
        raise CannotRecord(f"{' '.join(command)} did not end in {SECONDS} s") from fault
    finally:
        if process.poll() is None:
            end_process(process)
    if status != 0:
        raise CannotRecord(f"{' '.join(command)} ended by {status}")


def run_command(command, folder, **places):
    """Runs the command that is recorded. Its standard output goes to the marks."""
    marks = os.path.join(folder, "marks")
    with open(marks, "w", encoding="utf-8") as told:
        run_patiently(command, told, CRASH_MARKS=marks, **places)


def record_raw(folder, block, command):
    """Records a command that speaks NBD itself. `CRASH_SOCKET` is the socket, `CRASH_URI` its URI."""
    with recorder(folder, block) as sock:
        run_command(command, folder, CRASH_SOCKET=sock, CRASH_URI=f"nbd+unix:///?socket={sock}")


def record_files(folder, block, command, options):
    """Records a command that uses files. `CRASH_TREE` is the folder where they are."""
    tree = os.path.join(folder, "tree")
    with recorder(folder, block) as sock, nbdfuse_of(sock, os.path.join(folder, "fuse")) as file:
        with loop_of(file, block) as loop, mounted(loop, tree, options):
            run_command(command, folder, CRASH_TREE=tree)


def prepare_files(base, block, make, command):
    """Makes a file system in the base image, and lets a command fill it. Nothing of it is recorded."""
    must(*make, base)
    if not command:
        return
    tree = f"{base}.tree"
    with loop_of(base, block) as loop, mounted(loop, tree, "defaults"):
        run_patiently(command, subprocess.DEVNULL, CRASH_TREE=tree)


def remove(folder):
    """Removes a recording that is made anew. A folder that is none is refused."""
    known = {"base.img", "data.bin", "log.jsonl"}
    if os.path.exists(folder) and not set(os.listdir(folder)) <= known:
        raise CannotRecord(f"{folder} has other files than those of a recording")
    shutil.rmtree(folder, ignore_errors=True)
