"""Lines of traces, and what they do to an array."""


class Line:
    """A line, and what it does to an array of texts, one for each block."""

    def __init__(self, text, first=0, blocks=()):
        self.text, self.first, self.blocks = text, first, list(blocks)

    def after(self, array, count=None):
        """The array after the first blocks of it are done, or after all."""
        blocks = self.blocks[:count]
        return array[:self.first] + blocks + array[self.first + len(blocks):]


def random_write(shape, chance):
    """A fill, a write or a trim. Half of them are in a tenth of the disk."""
    count = chance.choice([1, 1, 2, 3, 8, chance.randrange(1, 40)])
    end = shape.blocks if chance.random() < 0.5 else shape.blocks // 10
    first = chance.randrange(max(end - count, 1))
    kind = chance.choice(["fill", "fill", "fill", "fill", "write", "trim"])
    if kind == "trim":
        return Line(f"trim {first} {count}", first, [f"00*{shape.block}"] * count)
    if kind == "fill":
        byte = f"{chance.randrange(1, 256):02x}"
        return Line(f"fill {first} {count} {byte}", first, [f"{byte}*{shape.block}"] * count)
    blocks = [chance.randbytes(shape.block).hex() for _ in range(min(count, 3))]
    return Line(f"write {first} {''.join(blocks)}", first, blocks)


def random_line(shape, chance):
    """A line of any kind that is always answered in the same way."""
    kind = chance.choices(["write", "read", "idle", "remount", "beyond"], [60, 30, 5, 1, 1])[0]
    if kind == "write":
        return random_write(shape, chance)
    if kind == "read":
        count = chance.randrange(1, 30)
        return Line(f"read {chance.randrange(shape.blocks - count)} {count}")
    if kind == "idle":
        return Line(f"idle {chance.randrange(1, 200)}")
    return Line("remount" if kind == "remount" else f"fill {shape.blocks - 1} 2 ff")


def text_of(lines):
    """The lines as a trace."""
    return "".join(f"{line.text}\n" for line in lines)


def answered(replies):
    """How many lines were answered: each of them by ok."""
    return sum(line == "ok" for line in replies.splitlines())


def is_left(lines, replies, array, found):
    """Whether a disk is as a run that was cut off leaves it: the answered lines are done, and a front of the rest."""
    done = answered(replies)
    for line in lines[:done]:
        array = line.after(array)
    if found == array:
        return True
    for line in lines[done:]:
        for count in range(1, len(line.blocks) + 1):
            if found == line.after(array, count):
                return True
        array = line.after(array)
    return False


def blocks_of(text):
    """The blocks that a read showed, or nothing if it was not answered."""
    lines = text.splitlines()
    return [line.split(" ", 1)[1] for line in lines[:-1]] if lines[-1:] == ["ok"] else []
