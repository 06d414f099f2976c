"""What was looked at, and what was wrong."""

import collections
import subprocess

figures = collections.Counter()
wrong = []


def look(holds, what):
    """Counts a thing that has to hold, and tells it if it does not."""
    figures["looked at"] += 1
    if not holds:
        wrong.append(what)
        print(f"WRONG: {what}", flush=True)
    return holds


def run(*words, seconds=600, **settings):
    """Runs a program: its exit status and what it wrote."""
    done = subprocess.run(words, stdin=subprocess.DEVNULL, stdout=subprocess.PIPE, stderr=subprocess.STDOUT, text=True,
                          timeout=seconds, check=False, **settings)
    return done.returncode, done.stdout


def succeeds(*words, **settings):
    """Runs a program that has to succeed, and gives what it wrote."""
    status, text = run(*words, **settings)
    look(status == 0, f"{' '.join(words[:4])} ended by {status}: {text[-400:]}")
    return text
