"""Looks at a cluster of PostgreSQL after a loss of power.

The server is started without clients, so it needs no socket. It replays its log as after any stop. Then amcheck looks
at the indexes and at the table, and all rows are read.
"""

import os
import re

import clusters
from work_postgres import text_of

QUESTIONS = """SELECT bt_index_check('ta', true)
SELECT bt_index_check('t_pkey', true)
SELECT msg FROM verify_heapam('t')
SELECT i, a FROM t ORDER BY i
"""
FIELD = re.compile(r'^\s*\d+: (\w+) = "(.*)"\t', re.MULTILINE)


def faults_of_cluster(folder, marks):
    """What is wrong with the cluster, as pairs of a kind and a text."""
    if not os.path.isdir(folder):
        return [("lost", "the cluster")]
    clusters.give_to_user(folder)
    lock = os.path.join(folder, "postmaster.pid")
    if os.path.exists(lock):
        os.remove(lock)
    status, text = clusters.single(folder, QUESTIONS)
    complaints = [line for line in text.splitlines() if re.search(r"\b(ERROR|FATAL|PANIC):", line)]
    if status != 0 or complaints:
        return [("corrupt", (complaints or text.splitlines()[-1:] or [f"the server ends by {status}"])[0][:120])]
    fields = FIELD.findall(text)
    faults = [("corrupt", value) for name, value in fields if name == "msg"]
    return faults[:1] or faults_of_rows([value for name, value in fields if name in ("i", "a")], marks)


def faults_of_rows(values, marks):
    """What is wrong with the rows, given as numbers and texts in turn."""
    rows = len(values) // 2
    if values != [value for number in range(rows) for value in (str(number), text_of(number))]:
        return [("corrupt", "the rows are not those of the transactions")]
    if rows < len(marks):
        return [("lost", f"rows: {len(marks)} told, {rows} found")]
    return []
