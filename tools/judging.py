"""What the second program says, written from docs/FORMAT.md and docs/MODEL.md alone and sharing nothing with it: sections, the judgement of a
run, the order of logs, and the edges of a conjunction."""
import itertools
import re

import litmus
import machine

MOST_INPUT = 16_777_216
MOST_EVENTS = 1_000_000
FAULTS = ("Names", "Order", "NotOldest", "NotEmpty", "Value", "Short")
ACTS = {"store": "push", "load": "read", "fence": "fence", "exchange": "exchange"}
NO_SECTION = litmus.Refused(9, "perple: no section\n")


def words_of(line):
    return [word for word in re.split(rb"[ \t\r]+", line) if word]


def number(word, most=machine.WORD):
    """The value of 1 to 20 digits; None for anything else."""
    if re.fullmatch(rb"[0-9]{1,20}", word) and int(word) <= most:
        return int(word)
    return None


def iterations(word):
    value = number(word, 100_000)
    return value or None


def bad_line(line):
    return litmus.Refused(10, "perple: section line %d\n" % line)


def split(text, name):
    """The litmus part, N, and the section's lines with words, each with its number; and the number of the last line."""
    lines = text.split(b"\n")
    if not lines[-1]:
        lines.pop()
    at = 0
    for i, line in enumerate(lines):
        words = words_of(line)
        if len(words) == 2 and words[0] == name and iterations(words[1]):
            section = [(j, words_of(more)) for j, more in enumerate(lines[i + 1:], i + 2) if words_of(more)]
            return text[:at], iterations(words[1]), section, len(lines)
        at += len(line) + 1
    raise NO_SECTION


def event_of(words):
    """(thread, iteration, place, kind, value); None for words of no such form."""
    if len(words) < 4 or not words[0].startswith(b"P"):
        return None
    names = [number(word, litmus.MOST) for word in (words[0][1:], words[1], words[2])]
    kind = words[3].decode("latin-1")
    value = number(words[4]) if len(words) == 5 else None
    reads = kind in ("read", "exchange")
    if None in names or kind not in ("push", "drain", "fence", "read", "exchange") or len(words) != 4 + reads or (reads and value is None):
        return None
    return (*names, kind, value)


def events_of(section):
    events = []
    for line, words in section:
        event = event_of(words)
        if event is None:
            raise bad_line(line)
        events.append(event)
    return events


class State:
    """Memory, buffers of (location, value, iteration, place) and how many actions each thread has done; and the threads' logs."""

    def __init__(self, test, n):
        self.test, self.n, self.memory = test, n, [0] * len(test.locations)
        self.buffers, self.done = [[] for _ in test.bodies], [0] * len(test.bodies)
        self.logs = [[] for _ in test.bodies]

    def value(self, thread, iteration, place):
        stores = [(t, at) for t, at, _ in self.test.stores(self.test.bodies[thread][place].loc)]
        return len(stores) * iteration + 1 + stores.index((thread, place))

    def due(self, thread, loc):
        own = [value for x, value, _, _ in self.buffers[thread] if x == loc]
        return own[-1] if own else self.memory[loc]

    def fault(self, event):
        thread, iteration, place, kind, value = event
        if thread >= len(self.test.bodies) or iteration >= self.n or place >= len(self.test.bodies[thread]):
            return 1
        body, buffer = self.test.bodies[thread], self.buffers[thread]
        action = body[place]
        if kind != "drain" and ((iteration, place) != divmod(self.done[thread], len(body)) or ACTS[action.kind] != kind):
            return 2
        if kind == "drain" and (not buffer or buffer[0][2:] != (iteration, place)):
            return 3
        if kind in ("fence", "exchange") and buffer:
            return 4
        if (kind == "read" and value != self.due(thread, action.loc)) or (kind == "exchange" and value != self.memory[action.loc]):
            return 5
        return 0

    def do(self, event):
        thread, iteration, place, kind, value = event
        action = self.test.bodies[thread][place]
        if kind == "drain":
            loc, written = self.buffers[thread].pop(0)[:2]
            self.memory[loc] = written
            return
        self.done[thread] += 1
        if kind in ("read", "exchange"):
            self.logs[thread].append(value)
        if kind == "push":
            self.buffers[thread].append((action.loc, self.value(thread, iteration, place), iteration, place))
        if kind == "exchange":
            self.memory[action.loc] = self.value(thread, iteration, place)

    def is_over(self):
        return not any(self.buffers) and all(done == self.n * len(body) for done, body in zip(self.done, self.test.bodies))


def judged(test, n, events):
    """The line of `judge`, and the state at the end."""
    state = State(test, n)
    for at, event in enumerate(events, 1):
        fault = state.fault(event)
        if fault:
            return "Wrong %d kind %d %s\n" % (at, fault, FAULTS[fault - 1]), state
        state.do(event)
    if not state.is_over():
        return "Wrong %d kind 6 Short\n" % (len(events) + 1), state
    return "Legal %d\n" % len(events), state


def enabled(state):
    """The events that may come next."""
    choices = []
    for t, body in enumerate(state.test.bodies):
        if state.buffers[t]:
            choices.append((t, *state.buffers[t][0][2:], "drain", None))
        if state.done[t] < state.n * len(body):
            iteration, place = divmod(state.done[t], len(body))
            kind = ACTS[body[place].kind]
            reads = kind in ("read", "exchange")
            event = (t, iteration, place, kind, state.due(t, body[place].loc) if reads else None)
            if not state.fault(event):
                choices.append(event)
    return choices


def some_run(rng, test, n):
    """A legal run in which what comes next is drawn."""
    state, events = State(test, n), []
    while not state.is_over():
        event = rng.choice(enabled(state))
        state.do(event)
        events.append(event)
    return events, state.logs


def line_of(event):
    thread, iteration, place, kind, value = event
    return b"P%d %d %d %s" % (thread, iteration, place, kind.encode()) + (b"" if value is None else b" %d" % value) + b"\n"


def check_order(test, n):
    """What is refused before a run is ordered."""
    for loc in range(len(test.locations)):
        if len({t for t, _, _ in test.stores(loc)}) > 1:
            raise litmus.Refused(13, "perple: location %d has several writers\n" % loc)
    check_events(test, n)


def check_events(test, n):
    """What is refused before a run is told."""
    if 2 * n * sum(map(len, test.bodies)) > MOST_EVENTS:
        raise litmus.Refused(12, "perple: limit events %d\n" % MOST_EVENTS)


def columns_of(body):
    return [place for place, action in enumerate(body) if action.kind in ("load", "exchange")]


def logs_of(test, n, section, last):
    """The log of each thread, one value after another."""
    logs = []
    for line, words in section:
        if len(logs) == len(test.bodies):
            raise bad_line(line)
        values = [number(word) for word in words[1:]]
        if words[0] != b"P%d" % len(logs) or len(values) != n * len(columns_of(test.bodies[len(logs)])) or None in values:
            raise bad_line(line)
        logs.append(values)
    if len(logs) < len(test.bodies):
        raise bad_line(last)
    return logs


def wrong_value(test, n, logs):
    """Where the first value stands that is in no run; None where there is none."""
    for t, body in enumerate(test.bodies):
        state, values = {}, iter(logs[t])
        for i in range(n):
            column = 0
            for place, action in enumerate(body):
                stores = test.stores(action.loc)
                mine = [(s, at) for s, at, _ in stores].index((t, place)) + 1 if action.kind in ("store", "exchange") else None
                if action.kind in ("load", "exchange"):
                    value = next(values)
                    own = any(s == t for s, _, _ in stores)
                    if value != state.get(action.loc, 0) if own else value > len(stores) * n:
                        return "No order value %d %d %d\n" % (t, i, column)
                    column += 1
                if mine:
                    state[action.loc] = len(stores) * i + mine
    return None


def has_order(test, n, logs):
    """Whether the six kinds of pairs have no cycle."""
    after = {}

    def pair(first, second):
        after.setdefault(first, set()).add(second)
        after.setdefault(second, set())

    def write_of(loc, value):
        stores = test.stores(loc)
        iteration, rank = divmod(value - 1, len(stores))
        thread, place, _ = stores[rank]
        return (thread, iteration, place, "drain" if test.bodies[thread][place].kind == "store" else "act")

    for t, body in enumerate(test.bodies):
        values, previous, drains = iter(logs[t]), None, []
        for i, (place, action) in itertools.product(range(n), enumerate(body)):
            here = (t, i, place, "act")
            after.setdefault(here, set())
            if previous:
                pair(previous, here)
            previous = here
            if action.kind == "store":
                drain = (t, i, place, "drain")
                pair(here, drain)
                if drains:
                    pair(drains[-1], drain)
                drains.append(drain)
            if action.kind in ("fence", "exchange") and drains:
                pair(drains[-1], here)
            if action.kind in ("load", "exchange"):
                value, stores = next(values), test.stores(action.loc)
                if all(s != t for s, _, _ in stores):
                    if value:
                        pair(write_of(action.loc, value), here)
                    if value + 1 <= len(stores) * n:
                        pair(here, write_of(action.loc, value + 1))
    return is_acyclic(after)


def is_acyclic(after):
    before = {node: 0 for node in after}
    for node in after:
        for other in after[node]:
            before[other] += 1
    free, done = [node for node in after if not before[node]], 0
    while free:
        done += 1
        for other in after[free.pop()]:
            before[other] -= 1
            if not before[other]:
                free.append(other)
    return done == len(after)


def edges_of(test, group):
    """The edges of a conjunction, from (thread, place) to those that follow."""
    after = {}
    for t, body in enumerate(test.bodies):
        nodes = [place for place, action in enumerate(body) if action.kind != "fence"]
        for place in nodes:
            after[t, place] = set()
        for first, second in itertools.combinations(nodes, 2):
            between = {action.kind for action in body[first + 1:second]}
            if (body[first].kind, body[second].kind) != ("store", "load") or between & {"fence", "exchange"}:
                after[t, first].add((t, second))
    for kind in group:
        reader, stores = (kind.reader, kind.place), [(t, place) for t, place, _ in test.stores(kind.loc)]
        if kind.form != "fr" and stores[kind.a - 1][0] != kind.reader:
            after[stores[kind.a - 1]].add(reader)
        if kind.form == "fr":
            after[reader].add(stores[0])
        if kind.form == "exact" and kind.a < kind.k:
            after[reader].add(stores[kind.a])
    return after


def is_cycle(after, nodes):
    return len(nodes) >= 2 and all(second in after.get(first, ()) for first, second in zip(nodes, nodes[1:] + nodes[:1]))


def is_hidden(test, kind):
    """Whether an atom names a store of the reader's own thread that is not the newest one before the read."""
    own = [place for t, place, _ in test.stores(kind.loc) if t == kind.reader]
    named = test.stores(kind.loc)[kind.a - 1][:2] if kind.form == "rf" else None
    return named is not None and named[0] == kind.reader and named[1] != max([place for place in own if place < kind.place], default=None)


def is_ordered(test, group):
    """Whether each atom tells of every store of its location whether it comes before or after the read."""
    return all(kind.form != "rf" or ({t for t, _, _ in test.stores(kind.loc)} == {kind.reader} and not is_hidden(test, kind)) for kind in group)


def is_loose(kind):
    """Whether the atom may hold at a frame by an iteration of its writer that is not the frame's."""
    return kind.form == "rf" and kind.writer != kind.reader


def faithfulness(test, kinds):
    """What `perple_tool faithful` says: the first loose atom, with its conjunction from 0 and its number from 1."""
    number = next((number for number, kind in enumerate(kinds) if is_loose(kind)), None)
    return "Faithful\n" if number is None else "Loose %d %d\n" % (sum(end <= number for end in test.ends), number + 1)
