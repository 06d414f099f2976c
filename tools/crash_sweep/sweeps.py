"""A sweep: many cuts of one recording, a check of each image, and what was found.

Cuts are done in parallel, in batches. Results come in the order of the cuts, whatever the number of jobs.
"""

import concurrent.futures
import contextlib
import hashlib
import multiprocessing
import os
import random
import shlex
import shutil
import signal
import sys
import tempfile
import time
from typing import NamedTuple, Optional

from checks import check_of
from cutters import BUILT, Cut, Cutter, Told, pending_counts
from recordings import Recording

BATCH = 8
# How many seconds one cut and its check may take.
LIMIT = 300
# Where scratch files are fast. Each FLUSH of a replay syncs a file.
MEMORY = "/dev/shm"


class Plan(NamedTuple):
    """What a sweep does: all its words."""

    folder: str
    program: str
    check: str = ""
    check_command: str = ""
    mode: str = "forgets"
    odds: int = 50
    places: int = 0
    seeds: int = 1
    most: int = 0
    order: str = "flushes"
    seed: int = 1
    jobs: int = 1
    scratch: str = ""


class Result(NamedTuple):
    """What one cut left."""

    cut: Cut
    told: Optional[Told]
    faults: list


@contextlib.contextmanager
def scratch_folder(prefix):
    """A folder for scratch files, which is removed afterwards: below TMPDIR if that is set, else in memory.

    Others may enter it, since root runs PostgreSQL as another user.
    """
    place = None if "TMPDIR" in os.environ or not os.access(MEMORY, os.W_OK) else MEMORY
    with tempfile.TemporaryDirectory(prefix=prefix, dir=place) as folder:
        os.chmod(folder, 0o755)
        yield folder


# ---- which cuts


def places_of(recording, pending, order, chance):
    """The places of cuts, as they are tried.

    With `flushes` those just before a FLUSH that stores something come first, and the end of the log. There most is
    pending. With `random` no place is preferred.
    """
    places = list(range(len(recording.requests) + 1))
    chance.shuffle(places)
    if order == "random":
        return places
    ends = {request.number - 1 for request in recording.requests if request.op == "flush"} | {len(recording.requests)}
    return sorted(places, key=lambda place: not (place in ends and pending[place]))


def cuts_of(recording, plan):
    """The cuts of a sweep, in order: each place with a first seed, then each with a second one, and so on.

    Where nothing is pending, one seed is enough.
    """
    pending, chance = pending_counts(recording), random.Random(plan.seed)
    places = places_of(recording, pending, plan.order, chance)[:plan.places or None]
    cuts = []
    for turn in range(1 if plan.mode == "keeps" else plan.seeds):
        for place in places:
            if plan.mode == "keeps":
                cuts.append(Cut(place))
            elif turn == 0 or pending[place]:
                cuts.append(Cut(place, seed_of(plan.seed, turn, place), plan.odds))
    return cuts[:plan.most or None]


def seed_of(seed, turn, place):
    """The seed of a cut: 48 bits that follow from the sweep's seed, the turn and the place."""
    return int.from_bytes(hashlib.sha256(f"{seed} {turn} {place}".encode()).digest()[:6], "big")


# ---- one job


class Worker:
    """What one job needs for its cuts."""

    def __init__(self, plan):
        self.recording = Recording(plan.folder)
        self.cutter = Cutter(self.recording, plan.program, plan.scratch)
        self.scratch = plan.scratch
        self.check = check_of(plan.check, plan.check_command)

    def look(self, cut):
        """Makes an image and checks it. At the limit SIGALRM ends this process, and with it the sweep."""
        folder = tempfile.mkdtemp(dir=self.scratch)
        os.chmod(folder, 0o755)
        signal.alarm(LIMIT)
        try:
            image, work = os.path.join(folder, "image"), os.path.join(folder, "work")
            told = self.cutter.write_image(cut, image)
            os.mkdir(work)
            faults = self.check(image, self.recording.marks_at(cut.at), work)
            return Result(cut, told, [tuple(fault) for fault in faults])
        finally:
            signal.alarm(0)
            shutil.rmtree(folder, ignore_errors=True)


worker, is_ending = None, None


def start_worker(plan, ending):
    """Makes the worker of this process. No cut is begun once `ending` is set."""
    global worker, is_ending
    is_ending = ending
    for number in (signal.SIGTERM, signal.SIGHUP, signal.SIGINT):
        signal.signal(number, signal.SIG_DFL)
    worker = Worker(plan)


def look_at_batch(cuts):
    """Looks at several cuts in this process."""
    return [worker.look(cut) for cut in cuts if not is_ending.is_set()]


def results_of(plan, cuts):
    """The results, in the order of the cuts."""
    batches = [cuts[first:first + BATCH] for first in range(0, len(cuts), BATCH)]
    forks = multiprocessing.get_context("fork")
    ending = forks.Event()
    jobs = concurrent.futures.ProcessPoolExecutor(plan.jobs, forks, start_worker, (plan, ending))
    try:
        for results in jobs.map(look_at_batch, batches):
            yield from results
    finally:
        ending.set()
        jobs.shutdown(cancel_futures=True)


# ---- what was found


def shown_faults(faults):
    """Faults as texts."""
    return [f"{kind}: {text}" for kind, text in faults]


def cut_words(plan, cut):
    """The command that makes the image of a cut again."""
    words = ["tools/crash_sweep/run", "cut", plan.folder, "--at", str(cut.at), "--mode", plan.mode]
    words += [] if cut.seed is None else ["--seed", str(cut.seed), "--odds", str(cut.odds)]
    words += [] if plan.program == BUILT else ["--program", plan.program]
    return shlex.join([*words, "--to", "cut.img"])


def finding_of(plan, recording, result):
    """A failure, as a dictionary of one line."""
    cut, told = result.cut, result.told or Told(0, 0)
    return {"log": plan.folder, "sha256": recording.digest, "mode": plan.mode, "cut": cut.at, "seed": cut.seed,
            "odds": cut.odds, "pending": told.pending, "lost": told.lost, "faults": shown_faults(result.faults),
            "again": cut_words(plan, cut)}


class Summary:
    """Counts of a sweep."""

    def __init__(self, mode):
        self.mode, self.cuts, self.failed, self.kinds, self.first = mode, 0, 0, {}, None
        self.begun, self.ended = time.monotonic(), 0.0

    def add(self, result):
        """Counts a result. Whether it is the first failure."""
        self.cuts += 1
        if not result.faults:
            return False
        self.failed += 1
        self.first = self.first or self.cuts
        for kind in {kind for kind, _ in result.faults}:
            self.kinds[kind] = self.kinds.get(kind, 0) + 1
        return self.failed == 1

    def shown(self):
        """The counts. `first` is the number of the first cut that failed, and `mean` how many cuts there were for each
        one that failed."""
        return {"mode": self.mode, "cuts": self.cuts, "failed": self.failed, "kinds": dict(sorted(self.kinds.items())),
                "first": self.first, "mean": round(self.cuts / self.failed, 1) if self.failed else None,
                "seconds": round(self.ended - self.begun)}


class Progress:
    """Shows on standard error how far a sweep is: on a terminal in one line, and elsewhere in a line now and then."""

    def __init__(self, name, cuts):
        self.name, self.cuts, self.is_terminal = name, cuts, sys.stderr.isatty()
        self.wait = 1 if self.is_terminal else 10
        self.next = time.monotonic() + self.wait

    def show(self, summary):
        """Shows the counts, if it is time."""
        if time.monotonic() < self.next:
            return
        self.next = time.monotonic() + self.wait
        text = f"{self.name}, {summary.mode}: {summary.cuts} of {self.cuts} cuts, {summary.failed} failed"
        print(f"\r{text}" if self.is_terminal else text, end="" if self.is_terminal else "\n", file=sys.stderr,
              flush=True)

    def end(self):
        """Clears the line of a terminal."""
        if self.is_terminal:
            print("\r\033[K", end="", file=sys.stderr, flush=True)


def sweep(plan, tell):
    """Does a sweep. `tell` gets the first failure. The summary."""
    with scratch_folder("crash_sweep.") as scratch:
        return sweep_within(plan._replace(scratch=scratch), tell)


def sweep_within(plan, tell):
    """Does a sweep in a scratch folder."""
    recording, summary = Recording(plan.folder), Summary(plan.mode)
    recording.check_digests()
    Cutter(recording, plan.program, plan.scratch).prepare()
    cuts = cuts_of(recording, plan)
    progress = Progress(os.path.basename(plan.folder.rstrip("/")), len(cuts))
    try:
        for result in results_of(plan, cuts):
            if summary.add(result):
                tell(finding_of(plan, recording, result))
            progress.show(summary)
    except SystemExit:
        # A signal came: what was found so far is told.
        summary.ended = time.monotonic()
        tell({**summary.shown(), "of": len(cuts), "ended_by": "signal"})
        raise
    finally:
        progress.end()
    summary.ended = time.monotonic()
    return summary
