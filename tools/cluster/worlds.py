"""Runs a program again in namespaces of its own, so that nothing of it is left: mounts, network and processes.

Loop devices are the only things that are not in a namespace. They are listed in the work folder, and given back at the
end by this list.
"""

import os
import shutil
import signal
import subprocess
import sys
import tempfile

INSIDE = "CLUSTER_WORK"
# The address of the only machine. GlusterFS refuses 127.0.0.1.
ADDRESS = "10.77.0.1"


class Failed(Exception):
    """A program that has to succeed did not."""


def run(*words, seconds=120):
    """Runs a program: its exit status and what it wrote."""
    done = subprocess.run([str(word) for word in words], stdin=subprocess.DEVNULL, stdout=subprocess.PIPE,
                          stderr=subprocess.STDOUT, text=True, timeout=seconds, check=False)
    return done.returncode, done.stdout


def must(*words, seconds=120):
    """Runs a program that has to succeed. What it wrote."""
    status, text = run(*words, seconds=seconds)
    if status != 0:
        raise Failed(f"{' '.join(map(str, words))} ended by {status}: {text[-500:]}")
    return text.strip()


def work():
    """The folder of this run."""
    return os.environ[INSIDE]


def note_loop(loop):
    """Remembers a loop device, so that it is given back whatever happens."""
    with open(os.path.join(work(), "loops"), "a", encoding="ascii") as file:
        file.write(f"{loop}\n")


def reap():
    """Process 1 of the namespace: waits for all orphans, and ends with the status of its first child."""
    child = os.fork()
    if child == 0:
        return
    while True:
        process, status = os.wait()
        if process == child:
            os._exit(os.waitstatus_to_exitcode(status) & 255)


def arrange():
    """Sets up the namespaces from within."""
    must("mount", "--make-rprivate", "/")
    must("mount", "-t", "tmpfs", "none", "/run")
    must("ip", "link", "set", "lo", "up")
    must("ip", "address", "add", f"{ADDRESS}/32", "dev", "lo")
    reap()


def give_back(folder):
    """Gives back the loop devices that are still over files of the folder, and removes it."""
    listed = os.path.join(folder, "loops")
    loops = open(listed, encoding="ascii").read().split() if os.path.exists(listed) else []
    for loop in loops:
        file = run("losetup", "-n", "-O", "BACK-FILE", loop)[1]
        if folder in file or file.strip().rstrip(")").endswith("/nbd"):
            run("losetup", "-d", loop)
    shutil.rmtree(folder, ignore_errors=True)


def enter(limit):
    """Returns inside the namespaces. Outside it waits, at most so many seconds, cleans up, and exits."""
    if INSIDE in os.environ:
        arrange()
        return
    for number in (signal.SIGTERM, signal.SIGHUP):
        signal.signal(number, signal.default_int_handler)
    folder = tempfile.mkdtemp(prefix="cluster.")
    words = ["unshare", "--mount", "--net", "--pid", "--fork", "--kill-child", "--mount-proc", sys.executable, "-B",
             os.path.abspath(sys.argv[0]), *sys.argv[1:]]
    process = subprocess.Popen(words, env={**os.environ, INSIDE: folder})
    try:
        status = process.wait(limit)
    except (subprocess.TimeoutExpired, KeyboardInterrupt):
        print("it was ended before its end", flush=True)
        process.kill()
        status = process.wait() or 1
    give_back(folder)
    sys.exit(status)
