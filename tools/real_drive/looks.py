"""What is counted, and what has to hold. All parts of a run count together."""

import collections
import threading

SHOWN = 5

figures = collections.Counter()
# Where a drive answered otherwise than the drive in memory, and may: the reason in words, and how often.
reasons = collections.Counter()
holder = threading.Lock()


def count(name, number=1):
    """Adds to a figure."""
    with holder:
        figures[name] += number


def explain(reason):
    """Counts a difference that has a reason."""
    with holder:
        reasons[reason] += 1


def look(holds, what):
    """Counts a thing that has to hold, and tells the first ones that do not."""
    with holder:
        figures["looks"] += 1
        if not holds:
            figures["wrong"] += 1
            if figures["wrong"] <= SHOWN:
                print(f"WRONG: {what}", flush=True)
    return holds


def told():
    """The figures in words."""
    return ", ".join(f"{name} {number}" for name, number in sorted(figures.items()) if name != "wrong")
