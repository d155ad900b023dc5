"""x86-TSO as a machine: every run of the abstract machine of Sewell, Sarkar, Owens, Zappa Nardelli and Myreen (CACM 2010) on a test as it
is written: memory, a store buffer for each thread, and the lock.

A thread is blocked while another one holds the lock. Its events:
- a load reads the newest write to its location in the own buffer, and if there is none, memory; not while the thread is blocked;
- a store goes to the back of the own buffer, at any time;
- the oldest write of a buffer goes to memory; not while the thread is blocked;
- a fence needs the own buffer empty;
- an exchange takes the lock where nobody holds it, reads, writes to the own buffer, and gives the lock back once that buffer is empty.

Nothing of it is shared with the programs, nor with bench/axiomatic.py; tools/litmus.py reads the texts."""
import collections

# How many actions of each thread are done, the buffers of (location, value), memory, and the lock: None, or its holder and whether it
# has yet to read, to write or to give the lock back.
State = collections.namedtuple("State", "done buffers memory lock")
READ, WRITE, UNLOCK = range(3)


def put(items, at, item):
    return items[:at] + (item,) + items[at + 1:]


class Machine:
    """Every run of a test. `endings` has, for each state met, what the asked registers that are still to be read may become."""

    def __init__(self, test, registers):
        self.test, self.endings, self.asked = test, {}, {}
        for number, (thread, reg) in enumerate(registers):
            self.asked[thread, test.held[thread][reg][1]] = number
        self.nothing = (None,) * len(registers)

    def states(self):
        threads = len(self.test.bodies)
        start = State((0,) * threads, ((),) * threads, (0,) * len(self.test.locations), None)
        return set(self.ending(start))

    def ending(self, state):
        if state not in self.endings:
            found = set()
            for after, read in self.steps(state):
                found |= {self.with_read(rest, read) for rest in self.ending(after)}
            self.endings[state] = found if found or not self.is_over(state) else {self.nothing}
        return self.endings[state]

    def is_over(self, state):
        return state.lock is None and not any(state.buffers) and all(
            done == len(body) for done, body in zip(state.done, self.test.bodies))

    def with_read(self, rest, read):
        """The values with that of a read, where an asked register keeps it."""
        return put(rest, self.asked[read[0]], read[1]) if read and read[0] in self.asked else rest

    def steps(self, state):
        """Each next state, and the read that led to it: where it stands, and its value."""
        dones, buffers, memory, lock = state
        for thread, body in enumerate(self.test.bodies):
            is_blocked = lock is not None and lock[0] != thread
            buffer, place = buffers[thread], dones[thread]
            if buffer and not is_blocked:
                (loc, value), *rest = buffer
                yield State(dones, put(buffers, thread, tuple(rest)), put(memory, loc, value), lock), None
            if place == len(body):
                continue
            action, done = body[place], put(dones, thread, place + 1)
            if action.kind == "store":
                yield State(done, self.written(state, thread, action), memory, lock), None
            elif action.kind == "load" and not is_blocked:
                yield State(done, buffers, memory, lock), ((thread, place), self.read(state, thread, action.loc))
            elif action.kind == "fence" and not buffer:
                yield State(done, buffers, memory, lock), None
            elif action.kind == "exchange" and not is_blocked:
                yield from self.exchange(state, thread, action, done)

    def exchange(self, state, thread, action, done):
        if state.lock is None:
            yield state._replace(lock=(thread, READ)), None
        elif state.lock[1] == READ:
            place = state.done[thread]
            yield state._replace(lock=(thread, WRITE)), ((thread, place), self.read(state, thread, action.loc))
        elif state.lock[1] == WRITE:
            yield state._replace(buffers=self.written(state, thread, action), lock=(thread, UNLOCK)), None
        elif not state.buffers[thread]:
            yield state._replace(lock=None, done=done), None

    def written(self, state, thread, action):
        """The buffers with a write more."""
        return put(state.buffers, thread, state.buffers[thread] + ((action.loc, action.value),))

    def read(self, state, thread, loc):
        own = [value for x, value in state.buffers[thread] if x == loc]
        return own[-1] if own else state.memory[loc]


def states(test, registers):
    """The final values of the registers, each a thread and a name, over all runs of a test."""
    return Machine(test, registers).states()
