"""SQLite and PostgreSQL on ext4 over a drive in its file, with kills of the program that serves it.

Transaction N adds three rows, removes those of N - 100, and writes N to a table of one row. So it can be seen whether a
part of one was done. The text of each row follows from its numbers.
"""

import importlib.machinery
import importlib.util
import os
import pwd
import shutil
import signal
import sqlite3
import subprocess
import sys
import threading
import time

from looks import figures, look, run, succeeds
from remains import BOOT

HERE = os.path.dirname(os.path.abspath(__file__))
MIB = 1 << 20
BLOCK = 4096
# How SQLite journals. With `delete` a commit is the removal of the journal, which only EXTRA syncs.
MODES = {"delete": "EXTRA", "truncate": "FULL", "wal": "FULL"}
FOLDERS = ("/usr/lib/postgresql/17/bin", "/usr/lib/postgresql/15/bin", "/usr/lib/postgresql/13/bin")
AS_POSTGRES = ["setpriv", "--reuid", "postgres", "--regid", "postgres", "--clear-groups"]
# Small pieces of the log, so that they are used again soon.
SETTINGS = """
listen_addresses = ''
shared_buffers = 16MB
min_wal_size = 2MB
max_wal_size = 4MB
checkpoint_timeout = 30s
restart_after_crash = off
autovacuum_naptime = 5s
"""


def module_of(path, program):
    """The tool that serves drives to nbdfuse, as a module."""
    words, sys.argv = sys.argv, [path, program, "0"]
    loader = importlib.machinery.SourceFileLoader("nbd_clients", path)
    module = importlib.util.module_from_spec(importlib.util.spec_from_loader("nbd_clients", loader))
    loader.exec_module(module)
    sys.argv = words
    return module


def text_of(number, part):
    """The text of a row."""
    return f"{number}.{part}.{'x' * (number * 37 % 3000 + part)}"


# ---- SQLite


def sqlite_work(path, mode):
    """Does transactions until one fails, and tells the number of each that is committed."""
    disk = sqlite3.connect(path, isolation_level=None)
    disk.execute(f"PRAGMA journal_mode={mode}")
    disk.execute(f"PRAGMA synchronous={MODES[mode]}")
    disk.execute("PRAGMA wal_autocheckpoint=50")
    disk.execute("CREATE TABLE IF NOT EXISTS rows(n, part, text, PRIMARY KEY(n, part))")
    disk.execute("CREATE TABLE IF NOT EXISTS last(n)")
    disk.execute("INSERT INTO last SELECT 0 WHERE NOT EXISTS(SELECT * FROM last)")
    number = disk.execute("SELECT n FROM last").fetchone()[0]
    while True:
        number += 1
        disk.execute("BEGIN")
        for part in range(3):
            disk.execute("INSERT INTO rows VALUES(?, ?, ?)", (number, part, text_of(number, part)))
        disk.execute("DELETE FROM rows WHERE n <= ?", (number - 100,))
        disk.execute("UPDATE last SET n = ?", (number,))
        disk.execute("COMMIT")
        print(number, flush=True)


class Sqlite:
    """A database of SQLite."""

    def __init__(self, tree, mode):
        self.path, self.mode, self.name, self.committed = f"{tree}/{mode}.db", mode, f"sqlite {mode}", 0

    def start(self):
        """Nothing has to be started."""

    def stop(self):
        """Nothing has to be stopped."""

    def words(self):
        """What does transactions."""
        return [sys.executable, "-B", os.path.abspath(__file__), self.path, self.mode]

    def found(self):
        """The last transaction, whether the database is sound, and its rows. Nothing where no table is there yet."""
        if not os.path.exists(self.path):
            return None
        disk = sqlite3.connect(self.path)
        try:
            sound = disk.execute("PRAGMA integrity_check").fetchone()[0]
            last = disk.execute("SELECT n FROM last").fetchone()
            rows = disk.execute("SELECT n, part, text FROM rows ORDER BY n, part").fetchall()
            return (last[0] if last else None), sound, rows
        except sqlite3.DatabaseError as fault:
            return None if "no such table" in str(fault) else (None, str(fault), [])
        finally:
            disk.close()

    def spoil(self):
        """Loses the last transaction."""
        disk = sqlite3.connect(self.path)
        disk.execute("UPDATE last SET n = n - 1")
        disk.commit()
        disk.close()


# ---- PostgreSQL


class Postgres:
    """A database of PostgreSQL."""

    name = "postgresql"

    def __init__(self, tree, folder):
        self.path, self.folder, self.committed = f"{tree}/postgres", folder, 0
        self.bin = next(path for path in FOLDERS if os.path.exists(f"{path}/postgres"))

    def as_user(self, *words, seconds=120):
        """Runs one of its programs as its user."""
        return run(*AS_POSTGRES, *words, seconds=seconds, cwd=self.folder)

    def made(self):
        """Makes the cluster, if it is not there."""
        if os.path.exists(f"{self.path}/PG_VERSION") and os.path.exists(f"{self.folder}/cluster"):
            return
        shutil.rmtree(self.path, ignore_errors=True)
        os.mkdir(self.path)
        user = pwd.getpwnam("postgres")
        os.chown(self.path, user.pw_uid, user.pw_gid)
        status, text = self.as_user(f"{self.bin}/initdb", "-D", self.path, "-A", "trust", "-k", "--wal-segsize=1",
                                    "--locale=C", seconds=600)
        look(status == 0, f"initdb: {text[-300:]}")
        with open(f"{self.path}/postgresql.conf", "a", encoding="ascii") as file:
            file.write(f"{SETTINGS}unix_socket_directories = '{self.folder}'\n")
        succeeds("sync", "-f", self.path)
        with open(f"{self.folder}/cluster", "w", encoding="ascii") as file:
            file.write("made\n")

    def unlock(self):
        """Removes the lock of a server that has ended, but that its parent has not waited for. It would seem to run."""
        lock = f"{self.path}/postmaster.pid"
        try:
            with open(lock, encoding="utf-8") as file:
                number = int(file.readline())
            with open(f"/proc/{number}/stat", encoding="utf-8") as file:
                state = file.read().rsplit(")", 1)[1].split()[0]
        except (OSError, ValueError):
            return
        if state == "Z":
            os.remove(lock)

    def start(self):
        """Starts the server, which repairs what a stop left."""
        self.made()
        self.unlock()
        status, text = self.as_user(f"{self.bin}/pg_ctl", "-D", self.path, "-w", "-t", "100", "-l",
                                    f"{self.folder}/postgres.log", "start")
        look(status == 0, f"PostgreSQL does not start: {text[-300:]} {self.log()}")
        self.ask("CREATE TABLE IF NOT EXISTS rows(n int, part int, text text, PRIMARY KEY(n, part));"
                 "CREATE TABLE IF NOT EXISTS last(n int);"
                 "INSERT INTO last SELECT 0 WHERE NOT EXISTS(SELECT * FROM last);")

    def log(self):
        """The end of what the server told."""
        try:
            with open(f"{self.folder}/postgres.log", encoding="utf-8", errors="replace") as file:
                return file.read()[-500:]
        except OSError:
            return ""

    def stop(self):
        """Stops the server at once, however it is."""
        self.as_user(f"{self.bin}/pg_ctl", "-D", self.path, "-m", "immediate", "-t", "20", "stop")

    def psql(self):
        """The words of its shell."""
        return [*AS_POSTGRES, f"{self.bin}/psql", "-X", "-q", "-A", "-t", "-F", "|", "-v", "ON_ERROR_STOP=1", "-h",
                self.folder, "postgres"]

    def ask(self, text):
        """What the server answers."""
        return run(*self.psql(), "-c", text, seconds=120, cwd=self.folder)

    def words(self):
        """What does transactions."""
        return [sys.executable, "-B", os.path.abspath(__file__), "postgres", *self.psql()]

    def found(self):
        """The last transaction, whether the database is sound, and its rows."""
        status, text = self.ask("SELECT n FROM last")
        if status != 0:
            return None, f"{text[-200:]} {self.log()}", []
        last = int(text)
        status, text = self.ask("SELECT n, part, text FROM rows ORDER BY n, part")
        rows = [line.split("|") for line in text.splitlines()]
        return last, "ok" if status == 0 else text[-200:], [(int(n), int(part), shown) for n, part, shown in rows]

    def spoil(self):
        """Loses the last transaction."""
        self.ask("UPDATE last SET n = n - 1")


def postgres_work(words):
    """Does transactions until one fails, and tells the number of each that is committed."""
    number = int(subprocess.run([*words, "-c", "SELECT n FROM last"], capture_output=True, check=True).stdout)
    shell = subprocess.Popen(words, stdin=subprocess.PIPE, stdout=subprocess.PIPE, text=True)
    while True:
        number += 1
        rows = ", ".join(f"({number}, {part}, '{text_of(number, part)}')" for part in range(3))
        shell.stdin.write(f"BEGIN; INSERT INTO rows VALUES {rows}; DELETE FROM rows WHERE n <= {number - 100};"
                          f"UPDATE last SET n = {number}; COMMIT;\n\\echo {number}\n")
        shell.stdin.flush()
        line = shell.stdout.readline()
        if line != f"{number}\n":
            sys.exit(1)
        print(number, flush=True)


# ---- kills


class Worker(threading.Thread):
    """A process that does transactions, and what it has told of them."""

    def __init__(self, base):
        super().__init__(daemon=True)
        self.base = base
        self.process = subprocess.Popen(base.words(), stdin=subprocess.DEVNULL, stdout=subprocess.PIPE,
                                        stderr=subprocess.DEVNULL, text=True, cwd="/")
        self.start()

    def run(self):
        for line in self.process.stdout:
            self.base.committed = max(self.base.committed, int(line))
            figures[f"transactions of {self.base.name}"] += 1

    def end(self):
        """Waits until it has failed, or ends it."""
        try:
            self.process.wait(15)
        except subprocess.TimeoutExpired:
            self.process.kill()
            self.process.wait()
        self.join(20)


def look_at(base, turn):
    """Looks whether a database is sound, and has each transaction that was committed."""
    found = base.found()
    if found is None:
        look(base.committed == 0, f"turn {turn}: {base.name}: {base.committed} is committed, and no table is there")
        return
    last, sound, rows = found
    look(sound == "ok", f"turn {turn}: {base.name}: {sound}")
    if last is None:
        look(base.committed == 0 and sound == "ok", f"turn {turn}: {base.name}: {base.committed} is committed")
        return
    look(last >= base.committed, f"turn {turn}: {base.name}: {base.committed} is committed, and {last} is found")
    wanted = [(n, part, text_of(n, part)) for n in range(max(last - 99, 1), last + 1) for part in range(3)]
    look(rows == wanted, f"turn {turn}: {base.name}: the rows are not those of transaction {last}")
    base.committed = last


def change_boot(image, chance):
    """Names another boot in the file, so that the next open takes what was flushed."""
    with open(image, "r+b") as file:
        file.seek(BOOT)
        file.write(chance.randbytes(16))


def open_disk(disk, turn):
    """Starts the server, lets e2fsck replay the journal, and mounts the file system. Whether all went well."""
    if not look(disk.start(), f"turn {turn}: nbdfuse starts"):
        return False
    if turn == 0:
        succeeds("mkfs.ext4", "-q", "-F", "-b", "4096", disk.disk)
    else:
        status, text = run("e2fsck", "-p", disk.disk)
        look(status <= 1, f"turn {turn}: e2fsck -p ended by {status}: {text[-300:]}")
        status, text = run("e2fsck", "-fn", disk.disk)
        look(status == 0, f"turn {turn}: e2fsck -fn ended by {status}: {text[-300:]}")
    figures["file systems that e2fsck found sound"] += 1
    return look(disk.mount(), f"turn {turn}: the file system is mounted")


def kill_server(disk):
    """Kills the program that serves, but not nbdfuse."""
    for process in disk.server():
        if process != disk.fuse.pid:
            try:
                os.kill(process, signal.SIGKILL)
            except ProcessLookupError:
                pass


def look_at_all(disk, bases, turn, spoils):
    """Databases are looked at after a start. Whether they could be."""
    if not open_disk(disk, turn):
        return False
    for base in bases:
        base.start()
        if spoils and turn == 2 and base.committed:
            base.spoil()
        if turn:
            look_at(base, turn)
    return True


def work_until_killed(disk, bases, chance):
    """Databases are used until the server is killed."""
    workers = [Worker(base) for base in bases]
    try:
        time.sleep(chance.uniform(0.3, 4))
        kill_server(disk)
        figures["kills of the server"] += 1
    finally:
        for worker in workers:
            worker.end()


def bases_of(tree, folder):
    """The databases."""
    bases = [Sqlite(tree, mode) for mode in MODES]
    lacks = [what for what, is_there in (
        ("postgresql", any(os.path.exists(f"{path}/postgres") for path in FOLDERS)),
        ("its user", "postgres" in [user.pw_name for user in pwd.getpwall()]),
        ("setpriv (util-linux)", shutil.which("setpriv")),
    ) if not is_there]
    if lacks:
        print(f"PostgreSQL is left out: {', '.join(lacks)} is not there", flush=True)
        return bases
    return [*bases, Postgres(tree, folder)]


def one_turn(disk, bases, turn, asked, work):
    """Databases are looked at, and used if there is work. Then all is stopped. Whether they could be looked at."""
    try:
        is_served = look_at_all(disk, bases, turn, asked.spoil)
        if is_served:
            work()
    finally:
        for base in bases:
            base.stop()
        disk.stop()
    return is_served


def kill_all(tool, image, bases, kills, asked, chance):
    """Kills in a row, and a last look. After every second kill the file gets another boot."""
    for turn in range(kills + 1):
        disk = tool.Mounted(asked.folder, image, BLOCK, "--blocks", str(300 * MIB // BLOCK))
        disk.patience = 100
        work = (lambda: work_until_killed(disk, bases, chance)) if turn < kills else (lambda: None)
        if not one_turn(disk, bases, turn, asked, work):
            return
        if turn % 2 and turn < kills:
            change_boot(image, chance)
            figures["kills after which the file got another boot"] += 1


def try_databases(asked, kills, chance):
    """Kills in a row under the same databases."""
    program, folder = asked.program, asked.folder
    tool = module_of(os.path.join(HERE, "..", "nbd_clients"), program)
    if not look(tool.has("nbdfuse", "mkfs.ext4", "fusermount3"), "nbdfuse, e2fsprogs and fuse3 are needed"):
        return
    os.chmod(folder, 0o777)
    image = f"{folder}/databases.drive"
    words = {"block": BLOCK, "zones": 96, "size": 1024, "capacity": 1024, "transfer": 256, "active": 8, "open": 8}
    succeeds(program, "format", "--image", image, "--in-place",
             *(word for name, number in words.items() for word in (f"--{name}", str(number))))
    kill_all(tool, image, bases_of(f"{folder}/tree", folder), kills, asked, chance)
    text = succeeds(program, "check", "--image", image)
    look(text == "the drive can be mounted\n", f"check: {text[-200:]}")
    for what in tool.wrong:
        look(False, what)


if __name__ == "__main__":
    if sys.argv[1] == "postgres":
        postgres_work(sys.argv[2:])
    else:
        sqlite_work(sys.argv[1], sys.argv[2])
