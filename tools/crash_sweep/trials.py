"""Records the ready-made workloads and sweeps them."""

import os

import recording_runs as runs
from ready_made import WORKLOADS, lacks_of
from sweeps import Plan, scratch_folder, sweep

BLOCK = 4096


def record_workload(workload, folder):
    """Records a workload anew."""
    runs.remove(folder)
    base = runs.make_base(folder, None, workload.size)
    if not workload.options:
        runs.record_raw(folder, BLOCK, list(workload.words))
        return
    runs.prepare_files(base, BLOCK, runs.MAKE.split(), workload.prepare)
    runs.record_files(folder, BLOCK, list(workload.words), workload.options)


def record_whole(workload, folder):
    """Records a workload, if its recording is not there. If that fails or is ended, no recording is left."""
    if os.path.exists(os.path.join(folder, "log.jsonl")):
        return
    try:
        record_workload(workload, folder)
    except (runs.CannotRecord, OSError, SystemExit):
        runs.remove(folder)
        raise


def is_as_wanted(workload, failed):
    """Whether the sweeps found what they have to find: of each mode the number of cuts that failed.

    A control fails in no mode. A bug may be hidden by a drive that keeps, and is found by one that forgets.
    """
    if workload.bug:
        return failed.get("forgets", 1) > 0
    return not any(failed.values())


def try_workload(name, folder, asked, tell):
    """Records a workload and sweeps it. Whether all was as wanted."""
    workload, summaries = WORKLOADS[name], []
    record_whole(workload, folder)
    plan = Plan(folder, asked.program, check=workload.check, odds=asked.odds, seeds=asked.cuts, most=asked.cuts,
                order=asked.order, seed=asked.seed, jobs=asked.jobs)
    for mode in ("keeps", "forgets"):
        if asked.mode in (mode, "both"):
            summaries.append(sweep(plan._replace(mode=mode), tell))
    is_wanted = is_as_wanted(workload, {summary.mode: summary.failed for summary in summaries})
    tell({"workload": name, "bug": workload.bug or None, "sweeps": [summary.shown() for summary in summaries],
          "as_wanted": is_wanted})
    return is_wanted


def names_of(asked, tell):
    """The names of the workloads. Without names they are all, but those that lack something."""
    for name in asked.names:
        if name not in WORKLOADS:
            raise runs.CannotRecord(f"no workload {name}; there are {', '.join(WORKLOADS)}")
        if lacks := lacks_of(WORKLOADS[name]):
            raise runs.CannotRecord(f"{name} lacks {', '.join(lacks)}")
    if asked.names:
        return asked.names
    for name, workload in WORKLOADS.items():
        if lacks := lacks_of(workload):
            tell({"workload": name, "left_out": True, "lacks": lacks})
    return [name for name, workload in WORKLOADS.items() if not lacks_of(workload)]


def try_all(asked, tell):
    """Tries workloads by their names, or all. The exit status."""
    names = names_of(asked, tell)
    with scratch_folder("crash_trials.") as own:
        place = os.path.abspath(asked.folder or own)
        wanted = [try_workload(name, os.path.join(place, name), asked, tell) for name in names]
    tell({"workloads": len(wanted), "wrong": wanted.count(False)})
    return 0 if all(wanted) else 1
