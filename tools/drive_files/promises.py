"""Which arrays a drive in its file may hold after a loss of power, and after a kill."""

import bisect

SECTOR = 512


class Promises:
    """Which arrays a loss after each event may leave, and a kill."""

    def __init__(self, talk, trace, calls, array, durable, is_new):
        self.trace, self.calls, self.durable = trace, calls, durable
        self.arrays = [array]
        for call in calls:
            self.arrays.append(call.after(self.arrays[-1]))
        # Up to which byte of the input each call reaches, and up to which byte of the output its reply.
        self.goodbye = len(talk.goodbye)
        self.inputs, self.outputs = [len(talk.hello)], [talk.greeting]
        for call in calls:
            self.inputs.append(self.inputs[-1] + len(call.sent))
            self.outputs.append(self.outputs[-1] + call.reply)
        # The flushes that answer a call: how many calls are done then.
        self.flushes = [number + 1 for number, call in enumerate(calls) if call.flushes]
        self.ends_with_flush, self.may_flush_at_end = talk.ends_with_flush, talk.may_flush_at_end
        self.is_silent = talk.name == "import"
        # What the program may flush before it is sent anything: nothing of a drive to which nothing was written.
        self.at_start = [array] if talk.may_flush_at_start and not is_new else []
        self.done = sum(call.is_done for call in calls)

    def answered(self, event):
        """How many calls were answered after an event."""
        if self.is_silent:
            return len(self.calls) if self.trace.ended[event] == 0 else 0
        past = bisect.bisect_right(self.outputs, self.trace.told[event]) if event >= 0 else 1
        return max(min(past - 1, self.done), 0)

    def received(self, event):
        """How many calls the program has read after an event, with the one that it may have read in part."""
        return min(bisect.bisect_left(self.inputs, self.trace.taken[event]), len(self.calls)) if event >= 0 else 0

    def is_ending(self, event):
        """Whether the program was told that no more calls follow."""
        is_told = self.goodbye and self.trace.taken[event] >= self.inputs[-1] + self.goodbye
        return self.trace.closed[event] or bool(is_told)

    def after_loss(self, event):
        """The arrays that a loss after an event may leave, the oldest first."""
        if event < 0:
            return list(self.durable)
        answered, received = self.answered(event), self.received(event)
        past = [done for done in self.flushes if done <= answered]
        found = [self.arrays[past[-1]]] if past else [*self.durable, *self.at_start]
        found += [self.arrays[done] for done in self.flushes if answered < done <= received]
        if self.may_flush_at_end and self.is_ending(event):
            found.append(self.arrays[-1])
        return found[-1:] if self.ends_with_flush and self.trace.ended[event] == 0 else found

    def since_flush(self, event):
        """How many calls were done at the last flush before an event, if one was answered, and at most after it."""
        if event < 0:
            return None, 0
        past = [done for done in self.flushes if done <= self.answered(event)]
        return past[-1] if past else None, self.received(event)

    def after_kill(self, event):
        """How many calls are done at least after a kill that follows an event, and how many at most."""
        return self.answered(event), self.received(event)


def may_follow(found, arrays, least, most):
    """Whether an array is one of these moments, or of the first part of the call that follows. It says little of a
    part: each byte is of the array before or after."""
    for number in range(least, most + 1):
        if found == arrays[number]:
            return True
        after = arrays[min(number + 1, most)]
        if len(found) in (len(arrays[number]), len(after)) and between(found, arrays[number], after):
            return True
    return False


def between(found, before, after):
    """Whether an array has a beginning of the changes between two others."""
    if len(before) != len(after):
        return False
    same = next((at for at in range(0, len(found), SECTOR) if found[at : at + SECTOR] != after[at : at + SECTOR]), None)
    return same is None or found[same:] == before[same:]
