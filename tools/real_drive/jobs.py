"""Single jobs on a device, and each refusal that a guest can show."""

import re

from looks import look
from machine import NOT_ZONED, files_of, install, modules_of
from shapes import OF_JOBS

DEVICE = "--device /dev/ng0n1"
OTHER_DATA = "more than two zones are partly written"
WHAT_IS_THERE = (
    "zonedisk: /dev/ng0n1: QEMU NVMe Ctrl, serial number zns, of 1073741824 bytes: it holds what cannot be mounted as "
    f"a disk ({OTHER_DATA}; zonedisk check shows all faults); zones that are not Empty: 3"
)
IN_USE = "fault device\nzonedisk: /dev/ng0n1 is in use"
HOLDER = re.compile(r"(?<=^zonedisk: the process )\d+(?= has it$)", re.MULTILINE)
NO_NAMESPACE = "is not the character device of an NVMe namespace: take /dev/ngXnY"
# Each command of a shell, and what it has to write, with its exit status. They follow one another in one guest.
JOBS = [
    ("zonedisk run --device /dev/nvme0n1 --blocks 9", f"fault device\nzonedisk: /dev/nvme0n1 {NO_NAMESPACE}", 1),
    ("zonedisk run --device /dev/nvme0 --blocks 9", f"fault device\nzonedisk: /dev/nvme0 {NO_NAMESPACE}", 1),
    ("zonedisk run --device /dev/null --blocks 9", f"fault device\nzonedisk: /dev/null {NO_NAMESPACE}", 1),
    ("zonedisk run --device /dev/none --blocks 9",
     "fault device\nzonedisk: /dev/none cannot be opened: No such file or directory (os error 2)", 1),
    # A drive that holds a file system is not changed.
    ("mkfs.btrfs -q -f -O zoned -d single -m single /dev/nvme0n1 > /dev/null 2>&1", "", 0),
    ("nvme zns close-zone /dev/ng0n1 -a; nvme zns report-zones /dev/ng0n1 -d 64 > /tmp/before", "*", 0),
    (f"zonedisk run {DEVICE} --blocks 3000",
     f"fault mount 7 TooManyPartial\nzonedisk: before the first line: {OTHER_DATA}", 1),
    (f"zonedisk check {DEVICE} --blocks 3000 | head -1", "refused: 3 zones are partly written, more than two", 0),
    (f"zonedisk format {DEVICE}",
     f"fault device\n{WHAT_IS_THERE}. format --force destroys that", 1),
    (f"zonedisk export {DEVICE}", f"zonedisk: /dev/ng0n1: {OTHER_DATA}", 1),
    ("nvme zns report-zones /dev/ng0n1 -d 64 | diff /tmp/before -", "", 0),
    # Nor is one that is mounted.
    ("mount -t btrfs /dev/nvme0n1 /mnt", "", 0),
    (f"zonedisk run {DEVICE} --blocks 3000", f"{IN_USE}: its block device is mounted, or the system has it", 1),
    (f"zonedisk format {DEVICE} --force", f"{IN_USE}: its block device is mounted, or the system has it", 1),
    ("umount /mnt", "", 0),
    (f"zonedisk format {DEVICE} --force",
     f"{WHAT_IS_THERE}. That is destroyed now\nok", 0),
    (f"zonedisk format {DEVICE}", "ok", 0),
    (f"printf 'fill 0 3 aa\\nread 2 2\\n' | zonedisk run {DEVICE} --blocks 3000", "ok\n2 aa*4096\n3 00*4096\nok", 0),
    (f"printf 'read 0 1\\nremount\\nfill 7 1 bb\\ntrim 1 1\\n' | zonedisk run {DEVICE} --blocks 2000",
     "0 aa*4096\nok\nok\nok\nok\n/dev/ng0n1: the drive says that its disk has 3000 logical blocks: "
     "that counts, and not --blocks 2000", 0),
    (f"printf 'read 0 2\\nread 7 1\\n' | zonedisk run {DEVICE} --blocks 3000",
     "0 aa*4096\n1 00*4096\nok\n7 bb*4096\nok", 0),
    (f"zonedisk check {DEVICE}", "the drive can be mounted", 0),
    (f"zonedisk info {DEVICE} | grep '^live blocks'", "live blocks 3", 0),
    (f"zonedisk report {DEVICE} --state empty | head -1", "zones 63", 0),
    (f"seq 1 20000 | head -c 81920 > /tmp/text; zonedisk import {DEVICE} --first 100 < /tmp/text",
     "zonedisk: /dev/ng0n1: 20 blocks were written", 0),
    (f"zonedisk export {DEVICE} --first 100 --count 20 | cmp - /tmp/text", "", 0),
    # Only one program has it, and it cannot be mounted meanwhile.
    (f"mkfifo /tmp/lines; zonedisk run {DEVICE} --blocks 3000 < /tmp/lines & exec 3> /tmp/lines; sleep 5", "", 0),
    (f"zonedisk run {DEVICE} --blocks 3000", f"zonedisk: the process P has it\n{IN_USE} by another program", 1),
    ("mount -t zonefs /dev/nvme0n1 /mnt 2> /dev/null", "", 255),
    ("exec 3>&-; wait", "", 0),
    (f"printf 'fill 9 1 cc\\nfill 10 1 cc\\n' | zonedisk run {DEVICE} --blocks 3000 --stop-after 1",
     "fault mount 10 Halted\nzonedisk: before the first line: *", 1),
    (f"zonedisk entry report --dwords 16 | zonedisk nvme {DEVICE} --explain",
     "completion 1, identifier 0: Successful Completion (Generic Command Status, 00h)\n*", 0),
    ("nvme get-feature /dev/nvme0 -f 6 | grep -o 'value:.*'", "value:00000000", 0),
]


def job_script():
    """The script that does the jobs, and says what each wrote."""
    lines = []
    for number, (command, _, _) in enumerate(JOBS):
        lines.append(f"echo '== {number}'\n{{ {command}\n}} < /dev/null 2>&1\necho \"status $?\"")
    return "\n".join(lines) + "\n"


def fits(text, wanted):
    """Whether a text is as wanted. A star at the end stands for any text."""
    return text.startswith(wanted[:-1]) if wanted.endswith("*") else text == wanted


def do_jobs(machine):
    """Each job of the table, in one guest."""
    makers = install(["mkfs.btrfs"])
    options = ["--memory", "1536", *modules_of(["btrfs", "zonefs"]), *files_of(makers)]
    told = machine.guest(OF_JOBS, machine.share(), job_script(), options=options)
    for number, (command, wanted, status) in enumerate(JOBS):
        text = told.partition(f"== {number}\n")[2].partition(f"== {number + 1}\n")[0]
        text, _, ended = text.rpartition("status ")
        text = HOLDER.sub("P", text)
        if machine.spoils:
            wanted = wanted.replace("aa", "ab")
        is_right = fits(text.strip("\n"), wanted) and ended.strip() == str(status)
        look(is_right, f"{command}: {text!r}, status {ended.strip()}, and awaited were {wanted!r} and {status}")


def refuse_other(machine):
    """A drive that is not zoned is refused."""
    script = f"zonedisk run {DEVICE} --blocks 9 2>&1; true"
    refused = machine.guest(OF_JOBS, machine.share(), script, options=NOT_ZONED)
    look("the namespace is not zoned" in refused, f"a drive that is not zoned: {refused!r}")


def try_jobs(machine, _count):
    """Each job on a device, and each refusal that a guest can show."""
    machine.side_by_side(lambda job: job(machine), [do_jobs, refuse_other])
