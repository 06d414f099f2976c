"""A cluster of PostgreSQL in a folder: how it is made, and how its programs are run.

PostgreSQL refuses root, so root runs it as the user postgres. Any other user runs it as itself.
"""

import glob
import os
import subprocess

SETTINGS = """
listen_addresses = ''
shared_buffers = 16MB
min_wal_size = 2MB
max_wal_size = 4MB
autovacuum = off
restart_after_crash = off
"""


def folder_of_programs():
    """The programs of the newest version that is there."""
    found = sorted(glob.glob("/usr/lib/postgresql/*/bin"), key=lambda path: int(path.split("/")[4]))
    if not found:
        raise FileNotFoundError("postgresql is not installed")
    return found[-1]


def program(name):
    """The path of one of its programs."""
    return os.path.join(folder_of_programs(), name)


def as_user(*words):
    """Words that run a program as a user that PostgreSQL accepts."""
    if os.geteuid() != 0:
        return list(words)
    return ["setpriv", "--reuid", "postgres", "--regid", "postgres", "--clear-groups", *words]


def give_to_user(folder):
    """Gives a folder and all in it to that user."""
    if os.geteuid() == 0:
        subprocess.run(["chown", "-R", "postgres:postgres", folder], check=True)
    os.chmod(folder, 0o700)


def make_cluster(folder, sockets):
    """Makes a cluster with checksums."""
    os.mkdir(folder)
    give_to_user(folder)
    subprocess.run(as_user(program("initdb"), "-D", folder, "-A", "trust", "-k", "-N", "--wal-segsize=1", "--locale=C"),
                   check=True, stdout=subprocess.DEVNULL, cwd="/")
    with open(os.path.join(folder, "postgresql.conf"), "a", encoding="ascii") as file:
        file.write(f"{SETTINGS}unix_socket_directories = '{sockets}'\n")


def single(folder, text, seconds=100):
    """Lets a server without clients repair the cluster and answer lines of SQL. Its exit status and what it wrote."""
    settings = ("-c", "log_min_messages=error", "-c", "dynamic_shared_memory_type=mmap")
    words = as_user(program("postgres"), "--single", "-F", "-D", folder, *settings, "postgres")
    done = subprocess.run(words, input=text, stdout=subprocess.PIPE, stderr=subprocess.STDOUT, text=True, check=False,
                          timeout=seconds, cwd="/")
    return done.returncode, done.stdout
