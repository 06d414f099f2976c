#!/usr/bin/env python3
"""Commits rows to a database of SQLite in the folder CRASH_TREE, and tells each transaction that is committed.

usage: work_sqlite.py JOURNAL SYNCHRONOUS

The words are those of PRAGMA journal_mode and PRAGMA synchronous.
"""

import os
import sqlite3
import sys

ROWS = 100


def text_of(number):
    """The text of a row."""
    return f"{number * 2654435761 % (1 << 32):08x}" * 20


def main():
    journal, synchronous = sys.argv[1:]
    disk = sqlite3.connect(os.path.join(os.environ["CRASH_TREE"], "db"), isolation_level=None)
    disk.execute(f"PRAGMA journal_mode={journal}")
    disk.execute(f"PRAGMA synchronous={synchronous}")
    disk.execute("PRAGMA wal_autocheckpoint=50")
    disk.execute("CREATE TABLE t(i INTEGER PRIMARY KEY, a TEXT)")
    disk.execute("CREATE INDEX ta ON t(a)")
    for number in range(ROWS):
        disk.execute("BEGIN")
        disk.execute("INSERT INTO t VALUES(?, ?)", (number, text_of(number)))
        disk.execute("COMMIT")
        print(number, flush=True)


if __name__ == "__main__":
    main()
