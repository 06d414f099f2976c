"""This machine: the program, the guests that it starts, and the folders that they share."""

import concurrent.futures
import os
import shutil
import subprocess
import tempfile

from looks import look

HERE = os.path.dirname(os.path.abspath(__file__))
GUEST = os.path.join(HERE, "..", "zns_guest", "run")
# A program of each package that is not one of the guest's.
PACKAGES = {"nbd-client": "nbd-client", "socat": "socat", "mkfs.ext4": "e2fsprogs", "e2fsck": "e2fsprogs",
            "losetup": "mount", "nbdfuse": "libnbd-bin", "fusermount3": "fuse3", "mkfs.btrfs": "btrfs-progs",
            "mkfs.f2fs": "f2fs-tools", "sqlite3": "sqlite3", "fio": "fio"}
# The words for a namespace that has no zones.
NOT_ZONED = ["--namespace", "zoned=false"]


def install(names):
    """Installs the packages of programs that are missing: their paths."""
    paths = os.environ["PATH"] + ":/usr/sbin:/sbin"
    missing = {PACKAGES[name] for name in names if not shutil.which(name, path=paths)}
    if missing:
        quiet = dict(os.environ, DEBIAN_FRONTEND="noninteractive")
        for words in (["update"], ["install", "-y", "--no-install-recommends", *sorted(missing)]):
            command = ["apt-get", "-o", "DPkg::Lock::Timeout=300", *words]
            subprocess.run(command, check=True, stdout=subprocess.DEVNULL, env=quiet)
    return [shutil.which(name, path=paths) for name in names]


def files_of(paths):
    """The words that put files into a guest."""
    return [word for path in paths for word in ("--file", path)]


def modules_of(names):
    """The words that load modules in a guest."""
    return [word for name in names for word in ("--module", name)]


def script_of(name):
    """A file of this folder that a guest's shell runs."""
    return os.path.join(HERE, name)


class Machine:
    """The program, guests and folders of this run."""

    def __init__(self, asked, work):
        self.program, self.kernel, self.work = os.path.abspath(asked.program), asked.kernel, work
        self.guests, self.spoils, self.seed, self.fakes = asked.guests, asked.spoil, asked.seed, asked.fake

    def share(self):
        """A new folder that a guest shares with this machine."""
        return tempfile.mkdtemp(dir=self.work)

    def guest_words(self, shape, share, script, options=()):
        """The words that start a guest in which a script is run."""
        file, path = tempfile.mkstemp(dir=self.work, prefix="script.")
        os.write(file, script.encode("ascii"))
        os.close(file)
        return [GUEST, "--kernel", self.kernel, *shape.for_guest(), "--share", share, "--script", path,
                "--file", f"{self.program}=zonedisk", *options]

    def guest(self, shape, share, script, *words, options=(), seconds=1800):
        """Runs a script in a guest: what it wrote."""
        words = [*self.guest_words(shape, share, script, ["--timeout", str(seconds), *options]), *words]
        done = subprocess.run(words, stdout=subprocess.PIPE, stderr=subprocess.STDOUT, text=True, errors="replace",
                              check=False)
        look(done.returncode == 0, f"the guest ended by {done.returncode}: {done.stdout[-600:]}")
        return done.stdout

    def here(self, *words, data=""):
        """Runs the program on this machine: what it wrote, and its status as a last line."""
        done = subprocess.run([self.program, *words], input=data.encode("latin-1"), capture_output=True, check=False)
        return f"{done.stdout.decode('latin-1')}status {done.returncode}\n"

    def side_by_side(self, job, items):
        """Does a job with each item, in several guests at once. A fault of one is raised at the end."""
        with concurrent.futures.ThreadPoolExecutor(self.guests) as pool:
            return list(pool.map(job, items))

    def parts_of(self, number):
        """So many times, divided among the guests."""
        shares = min(self.guests, number)
        return [number // shares + (share < number % shares) for share in range(shares)]

    def given(self, share, name):
        """What the guest left in a file. One digit of it is changed if the run is to be spoiled."""
        text = read_file(share, name)
        return spoilt(text) if self.spoils else text


def spoilt(text):
    """A text with another digit, near the middle."""
    for at in range(len(text) // 2, len(text)):
        if text[at] in "0123456789abcdef":
            return text[:at] + ("1" if text[at] != "1" else "2") + text[at + 1:]
    return text + "1"


def read_file(share, name):
    """What a file of a shared folder holds, or nothing where there is none."""
    path = os.path.join(share, name)
    if not os.path.exists(path):
        return ""
    with open(path, encoding="latin-1", newline="") as file:
        return file.read()


def write_file(share, name, text):
    """Writes a file of a shared folder."""
    with open(os.path.join(share, name), "w", encoding="latin-1", newline="") as file:
        file.write(text)
