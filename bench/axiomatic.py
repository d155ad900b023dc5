"""x86-TSO as axioms over candidate executions: those of herd's x86tso.cat (Alglave, Maranget, Tautschnig, Herding cats, TOPLAS 2014).

A candidate gives each read a source (rf) and each location an order of its writes (co). It is an execution where
- sc per location: po-loc, rf, fr and co have no cycle;
- atomicity: between the read and the write of an exchange no write of another thread comes (rmw and fre;coe have no pair in common);
- global happens-before: the pairs of program order but those from a write to a read, the order that MFENCE keeps (mfence), the pairs from
  a write to a read of which one is locked (implied), rfe, co and fr have no cycle.

Nothing of it is shared with the programs, nor with tools/operational.py; tools/litmus.py reads the texts."""
import collections
import itertools

# What can be left out, to see that it is missed.
PARTS = ("sc per location", "atomicity", "write to write", "read to all", "mfence", "implied", "rfe", "co", "fr")

# An event of memory: R or W. An exchange is two, both locked. The initial writes are of no thread.
Event = collections.namedtuple("Event", "kind thread place loc value locked")
# What one location may be: the values of its last reads, by thread and place, and its pairs of happens-before.
Choice = collections.namedtuple("Choice", "values pairs")


def events_of(test):
    """The initial writes, and then the events of each thread in program order."""
    events = [Event("W", None, None, loc, 0, False) for loc in range(len(test.locations))]
    for thread, body in enumerate(test.bodies):
        for place, action in enumerate(body):
            locked = action.kind == "exchange"
            if action.kind in ("load", "exchange"):
                events.append(Event("R", thread, place, action.loc, None, locked))
            if action.kind in ("store", "exchange"):
                events.append(Event("W", thread, place, action.loc, action.value, locked))
    return events


def is_acyclic(pairs):
    """Whether the pairs have no cycle: those that begin where no pair ends are taken away, as long as there are such."""
    left = pairs
    while left:
        ends = {second for _, second in left}
        kept = [pair for pair in left if pair[0] in ends]
        if len(kept) == len(left):
            return False
        left = kept
    return True


class Model:
    """The candidates of a test, and the final values of the registers that are asked for."""

    def __init__(self, test, registers, without=None):
        self.test, self.without, self.events = test, without, events_of(test)
        self.asked = [(thread, test.held[thread][reg][1]) for thread, reg in registers]
        self.po = {(a, b) for a, b in itertools.combinations(range(len(self.events)), 2)
                   if self.events[a].thread is not None and self.events[a].thread == self.events[b].thread}

    def is_external(self, pair):
        return self.events[pair[0]].thread != self.events[pair[1]].thread

    def program_pairs(self):
        """The pairs of program order that happens-before keeps."""
        return {(a, b) for a, b in self.po if self.parts_of(a, b) - {self.without}}

    def parts_of(self, a, b):
        """By which parts of happens-before a pair of program order is kept."""
        first, second = self.events[a], self.events[b]
        kinds, between = first.kind + second.kind, self.test.bodies[first.thread][first.place:second.place]
        parts = {"RR": {"read to all"}, "RW": {"read to all"}, "WW": {"write to write"}, "WR": set()}[kinds]
        if any(action.kind == "fence" for action in between):
            parts = parts | {"mfence"}
        if kinds == "WR" and (first.locked or second.locked):
            parts = parts | {"implied"}
        return parts

    def choices(self, loc):
        """What the location may be by sc per location and atomicity, in each order of its writes."""
        here = [n for n, event in enumerate(self.events) if event.loc == loc]
        reads = [n for n in here if self.events[n].kind == "R"]
        initial, *writes = [n for n in here if self.events[n].kind == "W"]
        po_loc = {(a, b) for a, b in self.po if self.events[a].loc == self.events[b].loc == loc}
        found = set()
        for order in itertools.permutations(writes):
            co = set(itertools.combinations((initial, *order), 2))
            for rf in self.sources(reads, (initial, *order), set(), po_loc, co):
                fr = from_reads(rf, co)
                if self.without == "atomicity" or not self.breaks_atomicity(fr, co):
                    found.add(self.choice(rf, co, fr))
        return found

    def sources(self, reads, writes, rf, po_loc, co):
        """Gives one read after another a source. A cycle of some reads is one of all, so it is looked for each time."""
        if self.without != "sc per location" and not is_acyclic(po_loc | rf | from_reads(rf, co) | co):
            return
        if len(rf) == len(reads):
            yield rf
            return
        for write in writes:
            yield from self.sources(reads, writes, rf | {(write, reads[len(rf)])}, po_loc, co)

    def breaks_atomicity(self, fr, co):
        """Whether some pair of rmw is one of fre;coe."""
        fre, coe = filter(self.is_external, fr), set(filter(self.is_external, co))
        return any(middle == first and self.events[read].locked and self.events[read][1:3] == self.events[write][1:3]
                   for read, middle in fre for first, write in coe)

    def choice(self, rf, co, fr):
        values = {(self.events[read][1:3], self.events[write].value) for write, read in rf if self.events[read][1:3] in self.asked}
        parts = {"rfe": set(filter(self.is_external, rf)), "co": co, "fr": fr}
        return Choice(frozenset(values), frozenset().union(*(pairs for name, pairs in parts.items() if name != self.without)))

    def states(self):
        found = set()
        self.join([self.choices(loc) for loc in range(len(self.test.locations))], {}, self.program_pairs(), found)
        return found

    def join(self, locations, values, pairs, found):
        """Takes what one location after another may be. A cycle of some is one of all, so it is looked for each time."""
        state = None if locations else tuple(values[asked] for asked in self.asked)
        if state in found or not is_acyclic(pairs):
            return
        if not locations:
            found.add(state)
            return
        for choice in locations[0]:
            self.join(locations[1:], {**values, **dict(choice.values)}, pairs | choice.pairs, found)


def from_reads(rf, co):
    """fr: from a read to each write that comes after its source."""
    return {(read, after) for write, read in rf for before, after in co if before == write}


def states(test, registers, without=None):
    """The final values of the registers, each a thread and a name, over all executions of a test."""
    return Model(test, registers, without).states()
