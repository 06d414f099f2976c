#!/usr/bin/env python3
"""Commits rows to PostgreSQL in the folder CRASH_TREE, and tells each transaction that is committed.

usage: work_postgres.py make|on|off

`make` makes the cluster, before anything is recorded. The other words are values of its setting `fsync`. The server
writes checkpoints on the way. At the end it is stopped at once, without one.
"""

import os
import signal
import subprocess
import sys
import tempfile

import clusters

ROWS = 100


def text_of(number):
    """The text of a row."""
    return f"{number * 2654435761 % (1 << 32):08x}" * 40


def lines():
    """What the client sends, line by line."""
    for number in range(ROWS):
        yield f"INSERT INTO t VALUES({number}, '{text_of(number)}');\n\\echo {number}\n"
        if number % 50 == 49:
            yield "CHECKPOINT;\n"


def make(folder):
    """Makes the cluster and its table."""
    clusters.make_cluster(folder, "/tmp")
    status, text = clusters.single(folder, "CREATE TABLE t(i int PRIMARY KEY, a text)\nCREATE INDEX ta ON t(a)\n"
                                           "CREATE EXTENSION amcheck\n")
    if status != 0 or "ERROR" in text:
        sys.exit(text)
    subprocess.run(["sync", "-f", folder], check=True)


def work(folder, fsync, sockets):
    """Starts the server, sends the lines, and stops it at once."""
    control = clusters.as_user(clusters.program("pg_ctl"), "-D", folder, "-w", "-t", "60", "-l", f"{sockets}/log")
    options = f"-k {sockets} -c fsync={fsync}"
    subprocess.run([*control, "-o", options, "start"], check=True, stdout=subprocess.DEVNULL, cwd="/")
    try:
        shell = [clusters.program("psql"), "-X", "-q", "-v", "ON_ERROR_STOP=1", "-h", sockets, "-U", "postgres"]
        if os.geteuid() != 0:
            shell = shell[:-2]
        subprocess.run([*shell, "postgres"], input="".join(lines()), text=True, check=True, cwd="/")
    finally:
        subprocess.run([*control, "-m", "immediate", "stop"], check=True, stdout=subprocess.DEVNULL, cwd="/")


def main():
    signal.signal(signal.SIGTERM, lambda *_: sys.exit(2))
    folder = os.path.join(os.environ["CRASH_TREE"], "cluster")
    if sys.argv[1] == "make":
        os.chmod(os.environ["CRASH_TREE"], 0o755)
        make(folder)
        return
    with tempfile.TemporaryDirectory(prefix="pg.") as sockets:
        clusters.give_to_user(sockets)
        work(folder, sys.argv[1], sockets)


if __name__ == "__main__":
    main()
