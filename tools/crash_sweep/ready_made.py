"""Ready-made workloads: each with a planted bug, or a control that has none.

`try` records each one, and sweeps it twice. Controls must never fail. Each bug must be found by a disk that forgets.
"""

import glob
import os
import shutil
import sys
from typing import NamedTuple

HERE = os.path.dirname(os.path.abspath(__file__))
MIB = 1 << 20


class Workload(NamedTuple):
    """A command that is recorded, and the check of its images.

    `bug` says what is wrong with it; a control has none. `options` are those of the mount; without any the command
    speaks NBD. `prepare` fills the file system before.
    """

    check: str
    words: tuple
    bug: str = ""
    options: str = ""
    prepare: tuple = ()
    size: int = 32 * MIB


def script(name, *words):
    """A script of this folder, with its words."""
    return (sys.executable, "-B", os.path.join(HERE, name), *words)


def on_files(bug="", options="defaults", kind="synced"):
    """Files on ext4, each synced."""
    return Workload("files", script("work_files.py", kind), bug, options, size=16 * MIB)


def on_slots(kind, bug=""):
    """Slots of one file, written by O_DIRECT."""
    return Workload("direct", script("work_files.py", kind), bug, "defaults", script("work_files.py", "make-slots"),
                    16 * MIB)


def on_sqlite(journal, synchronous, bug="", options="defaults"):
    """Transactions of SQLite."""
    return Workload("sqlite", script("work_sqlite.py", journal, synchronous), bug, options)


def on_postgres(fsync, bug=""):
    """Transactions of PostgreSQL."""
    return Workload("postgres", script("work_postgres.py", fsync), bug, "defaults", script("work_postgres.py", "make"),
                    64 * MIB)


NO_FLUSH, NO_SYNC = "ext4 sends no FLUSH (nobarrier)", "synchronous=OFF"
WORKLOADS = {
    "raw-two-flushes": Workload("raw", script("work_raw.py", "two"), size=2 * MIB),
    "raw-one-flush": Workload("raw", script("work_raw.py", "one"), "no FLUSH before the commit block", size=2 * MIB),
    "files-synced": on_files(),
    "files-forgotten": on_files("one fsync is forgotten", kind="forgotten"),
    "files-nobarrier": on_files(NO_FLUSH, "nobarrier"),
    "direct-synced": on_slots("direct"),
    "direct-forgotten": on_slots("direct-forgotten", "O_DIRECT without fdatasync"),
    "sqlite-delete": on_sqlite("DELETE", "EXTRA"),
    "sqlite-delete-full": on_sqlite("DELETE", "FULL", "FULL does not sync the folder"),
    "sqlite-delete-off": on_sqlite("DELETE", "OFF", NO_SYNC),
    "sqlite-truncate": on_sqlite("TRUNCATE", "FULL"),
    "sqlite-truncate-off": on_sqlite("TRUNCATE", "OFF", NO_SYNC),
    "sqlite-persist": on_sqlite("PERSIST", "FULL"),
    "sqlite-persist-off": on_sqlite("PERSIST", "OFF", NO_SYNC),
    "sqlite-wal": on_sqlite("WAL", "FULL"),
    "sqlite-wal-off": on_sqlite("WAL", "OFF", NO_SYNC),
    "sqlite-nobarrier": on_sqlite("WAL", "FULL", NO_FLUSH, "nobarrier"),
    "postgres": on_postgres("on"),
    "postgres-off": on_postgres("off", "fsync=off"),
}


def lacks_of(workload):
    """What a workload needs and is not there."""
    if not workload.options:
        return []
    programs = ("nbdfuse", "fusermount3", "losetup", "mkfs.ext4", "e2fsck", "debugfs")
    lacks = [name for name in programs if not shutil.which(name)] + ["root"] * (os.geteuid() != 0)
    has_server = bool(glob.glob("/usr/lib/postgresql/*/bin/initdb"))
    return lacks + ["postgresql"] * (workload.check == "postgres" and not has_server)
