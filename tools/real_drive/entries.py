"""Random NVMe entries to a drive of a guest and to one in memory, and why their answers may differ."""

import random

from looks import count, explain, look
from machine import write_file

FLUSH, WRITE, READ, SEND, RECEIVE, APPEND = 0x00, 0x01, 0x02, 0x79, 0x7A, 0x7D
OPEN_ACTION = 3
# States of zones, as a descriptor has them, and as a Receive asks for them.
OPENED, CLOSED = 2, 4
ASKED = {2: OPENED, 4: CLOSED}
# Where an entry has two faults, either may be told.
TWO_FAULTS = {
    frozenset({"1b8", "1bc"}): "a Write beyond the zone's capacity and not at its pointer: either fault may be told",
    frozenset({"002", "080"}): "an address beyond the drive that is no zone's start: either fault may be told",
}
CLOSES = "a report after the drive had closed an open zone by itself, to open another: it may choose which"
LISTS = "a list of the zones that are open or closed, after the drive had closed one by itself"


def entry(opcode, address, dword12, dword13, number):
    """The digits of an entry."""
    dwords = [opcode | number % 0x10000 << 16, 1, *[0] * 8, address, 0, dword12, dword13, 0, 0]
    return b"".join(dword.to_bytes(4, "little") for dword in dwords).hex()


def random_entry(shape, zones, number, chance):
    """A line with a random command, mostly to some zones."""
    address = chance.choice(zones) * shape.size
    if chance.random() < 0.1:
        address = chance.randrange(shape.zones * shape.size + 3)
    opcode = chance.choices([FLUSH, WRITE, READ, SEND, RECEIVE, APPEND], [1, 6, 10, 10, 3, 40])[0]
    if opcode == FLUSH:
        return entry(opcode, 0, 0, 0, number)
    if opcode == SEND:
        action = chance.choice([1, 1, 2, 3, 3, 4, 5])
        select_all = chance.random() < 0.05 and action != OPEN_ACTION
        return entry(opcode, address, 0, action | select_all << 8, number)
    if opcode == RECEIVE:
        dwords = chance.choice([16, 32, 48, 101, chance.randrange(16, shape.transfer * shape.block // 4)])
        return entry(opcode, address, dwords - 1, chance.randrange(8) << 8 | chance.randrange(2) << 16, number)
    if opcode != APPEND:
        address += chance.randrange(10)
    blocks = chance.randrange(1, 9)
    line = entry(opcode, address, blocks - 1, 0, number)
    return line if opcode == READ else line + " " + chance.randbytes(8).hex() * (blocks * shape.block // 8)


def random_entries(shape, number, chance):
    """Lines with random commands. The zones change slowly."""
    zones = [chance.randrange(shape.zones) for _ in range(shape.open + 2)]
    lines = []
    for at in range(number):
        if chance.random() < 0.02:
            zones[chance.randrange(len(zones))] = chance.randrange(shape.zones)
        lines.append(random_entry(shape, zones, at, chance))
    return lines


def status_of(reply):
    """The type and code of a completion's status."""
    return f"{int.from_bytes(bytes.fromhex(reply[28:32]), 'little') >> 1:03x}"


def states_of(report):
    """The states of the zones that a report shows."""
    return [report[at] >> 4 for at in range(65, len(report) - 62, 64)]


def without_opened(report):
    """A report in which the zones that are open are closed."""
    report = bytearray(report)
    for at in range(65, len(report) - 62, 64):
        report[at] = CLOSED << 4 if report[at] >> 4 == OPENED else report[at]
    return report


def why(line, want, got):
    """Why an answer may differ from the one of the drive in memory, in words. It is empty if it may not differ so."""
    command = bytes.fromhex(line[:128])
    faults = TWO_FAULTS.get(frozenset({status_of(want), status_of(got)}), "")
    if faults:
        return faults if want[:28] == got[:28] and len(want) == len(got) == 32 else ""
    if command[0] != RECEIVE or want[:32] != got[:32] or len(want) != len(got) or " " not in want:
        return ""
    reports = [bytes.fromhex(reply[33:]) for reply in (want, got)]
    if without_opened(reports[0]) == without_opened(reports[1]):
        return CLOSES
    asked = ASKED.get(command[53])
    # What follows the last descriptor is zeros.
    is_list = asked and all(state in (asked, 0) for state in states_of(reports[1]))
    return LISTS if is_list else ""


def compare_entries(machine, shape, number):
    """Sends random entries to a drive of a guest, and to one in memory."""
    share, chance = machine.share(), random.Random(f"{machine.seed} entries {shape}")
    lines = random_entries(shape, number, chance)
    data = "".join(f"{line}\n" for line in lines)
    write_file(share, "lines", data)
    script = "zonedisk nvme --device /dev/ng0n1 < /share/lines > /share/replies"
    machine.guest(shape, share, script, seconds=1200 + 2 * number)
    given = machine.given(share, "replies").splitlines()
    wanted = machine.here("fresh-raw", *shape.for_memory(), data=data).splitlines()[:-1]
    found = f"{shape}: {len(given)} and {len(wanted)} completions of {number}"
    if not look(len(given) == len(wanted) == number, found):
        return
    for line, want, got in zip(lines, wanted, given):
        count("entries")
        if want == got:
            count("entries answered alike")
            continue
        reason = why(line, want, got)
        if look(reason, f"{shape}, {line[:128]}: {got[:90]}, and in memory {want[:90]}"):
            explain(reason)
