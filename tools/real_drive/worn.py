"""Zones that wear out, and Flushes that fail, by a library between the program and Linux's driver."""

import os
import subprocess

from machine import script_of

READ_ONLY, OFFLINE = 13, 15
NAMES = {READ_ONLY: "Read Only", OFFLINE: "Offline"}
EMPTY, OPENED, CLOSED, FULL = 1, 2, 4, 14
# The zones that may wear out, by what they hold.
ZONES = {"partly written": (OPENED, CLOSED), "full": (FULL,), "empty": (EMPTY,)}


def make_library(machine):
    """Compiles what lets zones wear out and Flushes fail."""
    library = os.path.join(machine.share(), "worn.so")
    words = [os.environ.get("CC", "cc"), "-shared", "-fPIC", "-O1", "-o", library, script_of("worn.c")]
    subprocess.run(words, check=True)
    return library
