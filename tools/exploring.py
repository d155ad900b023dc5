"""Runs of a test that end with given values, by exploring the machine of tools/operational.py. Nothing here is proved: the tools have
their runs judged by `perple_tool judge`, and ask `perple_tool show` first."""
import collections
import sys

import judging
import operational

MOST_MOMENTS = 100_000  # memory, buffers and how far the threads are
KINDS = {"store": "push", "load": "read", "fence": "fence", "exchange": "exchange"}

# An event of a run of one iteration, without the value that it reads.
Event = collections.namedtuple("Event", "thread place kind")


class TooMany(Exception):
    """The machine of a test has too many moments to be explored."""


class Runs(operational.Machine):
    """Runs that end with given values of some registers."""

    def __init__(self, test, registers):
        super().__init__(test, registers)
        sys.setrecursionlimit(20_000)

    def ending(self, state):
        if len(self.endings) > MOST_MOMENTS:
            raise TooMany
        return super().ending(state)

    def run(self, row):
        """The events of a run that ends with a row; None where the machine is too large."""
        try:
            return self.explored(row)
        except TooMany:
            return None

    def explored(self, row):
        threads = len(self.test.bodies)
        state = operational.State((0,) * threads, ((),) * threads, (0,) * len(self.test.locations), None)
        waiting, events, wanted = [[] for _ in range(threads)], [], row
        while not self.is_over(state):
            after, wanted = next((after, rest) for after, read in self.steps(state) for rest in self.ending(after)
                                 if self.with_read(rest, read) == wanted)
            events += self.event(state, after, waiting)
            state = after
        return events

    def event(self, state, after, waiting):
        """What happened between two states, if it is an event of a run: an exchange happens when its write reaches memory."""
        for thread, body in enumerate(self.test.bodies):
            place = state.done[thread]
            if len(after.buffers[thread]) < len(state.buffers[thread]):
                oldest = waiting[thread].pop(0)
                return [Event(thread, oldest, "exchange" if body[oldest].kind == "exchange" else "drain")]
            if len(after.buffers[thread]) > len(state.buffers[thread]):
                waiting[thread].append(place)
            if after.done[thread] > place and body[place].kind != "exchange":
                return [Event(thread, place, KINDS[body[place].kind])]
        return []


class Walk:
    """A run gone along, with the file's own values. The machine numbers the stores to a location by their ranks."""

    def __init__(self, test):
        self.test, self.state = test, judging.State(test, 1)

    def own_value(self, loc, rank):
        return 0 if rank == 0 else self.test.stores(loc)[rank - 1][2]

    def read(self, event):
        """The rank that an event reads; None where it reads nothing."""
        loc = self.test.bodies[event.thread][event.place].loc
        return self.state.due(event.thread, loc) if event.kind in ("read", "exchange") else None

    def step(self, event):
        """Does an event: the value that it reads, by rank; or refuses it, with the number of its fault."""
        numbered = (event.thread, 0, event.place, event.kind, self.read(event))
        fault = self.state.fault(numbered)
        if fault:
            raise ValueError("%s: %s" % (event, judging.FAULTS[fault - 1]))
        self.state.do(numbered)
        return numbered

    def register(self, thread, reg):
        """What a register holds at the end."""
        place = self.test.held[thread][reg][1]
        return self.own_value(self.test.bodies[thread][place].loc, self.state.logs[thread][self.test.column(thread, place)])


def section(test, events):
    """The section of `judge` for a run."""
    walk = Walk(test)
    return b"%events 1\n" + b"".join(judging.line_of(walk.step(event)) for event in events)


def final(test, registers, events):
    """What registers hold at the end of a run."""
    walk = Walk(test)
    for event in events:
        walk.step(event)
    if not walk.state.is_over():
        raise ValueError("the run is not over")
    return tuple(walk.register(*register) for register in registers)


def shown(out):
    """The events of a run that `show` writes."""
    return [Event(int(words[0][1:]), int(words[2]), words[3]) for words in map(str.split, out.splitlines()[1:])]
