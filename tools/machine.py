"""A replay, its counts and its report, written from docs/MODEL.md and docs/COMMANDS.md alone and sharing nothing with the program: the
generator, the drain rule, the schedules, the conditions, the heuristic pick, and the texts of `replay`, `demo` and `convert`."""
import itertools

import litmus

WORD = (1 << 64) - 1
MOST_FRAMES = 1 << 32


class Xoshiro256PlusPlus:
    """Blackman and Vigna's xoshiro256++, its four words made by their SplitMix64 from the seed, as rand_xoshiro's `seed_from_u64` makes them."""

    def __init__(self, seed):
        self.words = []
        for _ in range(4):
            seed = (seed + 0x9E3779B97F4A7C15) & WORD
            z = ((seed ^ seed >> 30) * 0xBF58476D1CE4E5B9) & WORD
            z = ((z ^ z >> 27) * 0x94D049BB133111EB) & WORD
            self.words.append(z ^ z >> 31)

    @staticmethod
    def rotated(x, by):
        return (x << by | x >> (64 - by)) & WORD

    def next(self):
        a, b, c, d = self.words
        result = (self.rotated((a + d) & WORD, 23) + a) & WORD
        t = b << 17 & WORD
        c ^= a
        d ^= b
        b ^= c
        a ^= d
        self.words = [a, b, c ^ t, self.rotated(d, 45)]
        return result


class Thread:
    """One thread's loop: its buffer has (location, value), the oldest first, and its log a list for each iteration."""

    def __init__(self, test, number, iterations, seed, rate, capacity):
        self.test, self.number, self.iterations, self.rate, self.capacity = test, number, iterations, rate, capacity
        self.body, self.done, self.buffer, self.log = test.bodies[number], 0, [], []
        self.generator = Xoshiro256PlusPlus((seed + number) & WORD)

    def drain(self, memory):
        loc, value = self.buffer.pop(0)
        memory[loc] = value

    def written(self, place, iteration):
        """k*n + a: k stores to the location, this one the a-th."""
        stores = self.test.stores(self.body[place].loc)
        rank = 1 + [(t, at) for t, at, _ in stores].index((self.number, place))
        return len(stores) * iteration + rank

    def act(self, memory):
        iteration, place = divmod(self.done, len(self.body))
        action = self.body[place]
        self.done += 1
        if place == 0:
            self.log.append([])
        if self.generator.next() % 256 < self.rate and self.buffer:
            self.drain(memory)
        if action.kind == "store":
            if len(self.buffer) == self.capacity:
                self.drain(memory)
            self.buffer.append((action.loc, self.written(place, iteration)))
        elif action.kind == "load":
            own = [value for loc, value in self.buffer if loc == action.loc]
            self.log[-1].append(own[-1] if own else memory[action.loc])
        else:
            while self.buffer:
                self.drain(memory)
            if action.kind == "exchange":
                self.log[-1].append(memory[action.loc])
                memory[action.loc] = self.written(place, iteration)

    def step(self, memory):
        """Whether anything was left to do."""
        if self.done < self.iterations * len(self.body):
            self.act(memory)
        elif self.buffer:
            self.drain(memory)
        else:
            return False
        return True


class Told(Thread):
    """A thread that tells its events to a list, as lines without a line feed."""

    def __init__(self, lines, *args):
        super().__init__(*args)
        self.lines, self.waiting = lines, []

    def tell(self, iteration, place, what):
        self.lines.append("P%d %d %d %s" % (self.number, iteration, place, what))

    def drain(self, memory):
        super().drain(memory)
        self.tell(*self.waiting.pop(0), "drain")

    def act(self, memory):
        at = divmod(self.done, len(self.body))
        kind = self.body[at[1]].kind
        super().act(memory)
        if kind == "store":
            self.waiting.append(at)
        self.tell(*at, {"store": "push", "load": "read", "fence": "fence", "exchange": "exchange"}[kind]
                  + (" %d" % self.log[-1][-1] if kind in ("load", "exchange") else ""))


def take_turns(threads, places, order):
    memory = [0] * places
    left = list(threads)
    chooser = None if order is None else Xoshiro256PlusPlus(order)
    turn = 0
    while left:
        at = turn % len(left) if chooser is None else chooser.next() % len(left)
        if left[at].step(memory):
            turn = at + 1
        else:
            del left[at]
            turn = at


def replay(test, iterations, seed=0, rate=64, capacity=8, order=None):
    """The threads' logs, by thread, iteration and column."""
    threads = [Thread(test, t, iterations, seed, rate, capacity) for t in range(len(test.bodies))]
    take_turns(threads, len(test.locations), order)
    return [thread.log if thread.body else [[]] * iterations for thread in threads]


def events(test, iterations, seed=0, rate=64, capacity=8, order=None):
    """The lines of the run's events, in order."""
    lines = []
    threads = [Told(lines, test, t, iterations, seed, rate, capacity) for t in range(len(test.bodies))]
    take_turns(threads, len(test.locations), order)
    return lines


def passes(kind, value, m):
    if kind.form == "rf":
        return value >= kind.k * m + kind.a and value % kind.k == kind.a % kind.k
    if kind.form == "exact":
        return value == kind.k * m + kind.a
    return value < kind.k * m + 1


def within(kind):
    """What an atom asks within a frame: an rf atom, too, takes the named store of the frame's own iteration, and no later one."""
    return kind._replace(form="exact") if kind.form == "rf" else kind


def read_by(kind, logs, i):
    return logs[kind.reader][i][kind.column]


def groups_of(test, kinds):
    return [kinds[start:end] for start, end in zip([0] + test.ends, test.ends)]


def is_hit(groups, logs, frame):
    return any(all(passes(kind, read_by(kind, logs, frame[kind.reader]), frame[kind.writer]) for kind in group) for group in groups)


def exhaustive(groups, logs, n, t):
    """At how many frames one conjunction or another passes: for each front of the frame the last thread's iterations stand as bits."""
    whole = (1 << n) - 1
    last = t - 1

    def mask(kind, reads, m):
        """The last iterations that pass beside these of the others, which are None where the last thread is named."""
        bits = 0
        for i in range(n):
            if passes(kind, read_by(kind, logs, i if reads is None else reads), i if m is None else m):
                bits |= 1 << i
        return bits

    known = {}

    def bits_of(kind, front):
        reads = None if kind.reader == last else front[kind.reader]
        m = None if kind.writer == last else front[kind.writer]
        if (kind, reads, m) not in known:
            if reads is not None and m is not None:
                known[kind, reads, m] = whole if passes(kind, read_by(kind, logs, reads), m) else 0
            else:
                known[kind, reads, m] = mask(kind, reads, m)
        return known[kind, reads, m]

    total = 0
    for front in itertools.product(range(n), repeat=last):
        hits = 0
        for group in groups:
            both = whole
            for kind in group:
                both &= bits_of(kind, front)
            hits |= both
        total += bin(hits).count("1")
    return total


def picked(group, logs, n, t, iteration):
    """The heuristic frame of a conjunction and an iteration of its base thread; or None."""
    chosen = {min(kind.reader for kind in group): iteration}
    while True:
        kind = next((kind for kind in group if kind.reader in chosen and kind.writer not in chosen), None)
        if kind is None:
            return [chosen.get(thread, iteration) for thread in range(t)]
        value = read_by(kind, logs, chosen[kind.reader])
        if kind.form == "fr":
            m = -(-value // kind.k)
        elif value and value % kind.k == kind.a % kind.k:
            m = (value - kind.a) // kind.k
        else:
            return None
        if m >= n:
            return None
        chosen[kind.writer] = m


def listed(groups, logs, n, t):
    """The finds of each conjunction in turn, each frame once."""
    hits = {}
    for group in groups:
        for iteration in range(n):
            frame = picked(group, logs, n, t, iteration)
            if frame and is_hit([group], logs, frame):
                hits[tuple(frame)] = True
    return list(hits)


def front_of(test, n, counts_all):
    """The report's lines before its counts."""
    lines = ["Test " + test.name, "Threads %d" % len(test.bodies), "Iterations %d" % n,
             "Condition %sexists %d" % ("~" if test.negated else "", len(test.atoms))]
    if counts_all:
        lines.append("Frames %d" % n ** len(test.bodies))
    return lines


def counted_within(test, kinds, logs, n):
    """The report of `perple_tool count`."""
    groups = groups_of(test, [within(kind) for kind in kinds])
    seen = exhaustive(groups, logs, n, len(test.bodies))
    return "\n".join(front_of(test, n, True) + ["Within %d" % seen, "Seen yes" if seen else "Seen no", ""])


def report(test, kinds, logs, n, count, shows_hits=True):
    groups, t, lines, seen = groups_of(test, kinds), len(test.bodies), front_of(test, n, count != "heuristic"), None
    if count != "heuristic":
        seen = exhaustive(groups, logs, n, t)
        lines.append("Exhaustive %d" % seen)
    if count != "exhaustive":
        hits = listed(groups, logs, n, t)
        lines.append("Heuristic %d" % len(hits))
        lines += ["Hit " + " ".join(map(str, frame)) for frame in hits if shows_hits]
        seen = len(hits) if seen is None else seen
    return "\n".join(lines + ["Seen yes" if seen else "Seen no"]) + "\n"


def demo_text(k):
    """The litmus text of a number, and its iterations."""
    generator = Xoshiro256PlusPlus(k)
    t = 2 + generator.next() % 3
    words = [generator.next() for _ in range(t)]
    stores = ["MOV [v%d],$1" % i for i in range(t)]
    loads = ["MOV EAX,[v%d]" % ((i + 1) % t) for i in range(t)]
    rows = [["P%d" % i for i in range(t)],
            [loads[i] if words[i] & 2 else stores[i] for i in range(t)],
            ["MFENCE" if words[i] & 1 else "" for i in range(t)],
            [stores[i] if words[i] & 2 else loads[i] for i in range(t)]]
    atoms = ["%d:EAX=%d" % (i, words[i] >> 2 & 1) for i in range(t)]
    lines = ["X86 DEMO%d" % k, "{ }"] + [" | ".join(row) + " ;" for row in rows] + ["exists (" + " /\\ ".join(atoms) + ")"]
    return "\n".join(lines) + "\n", {2: 4000, 3: 250, 4: 60}[t]


def demo(k):
    """What `demo K` writes."""
    text, n = demo_text(k)
    test = litmus.read(text.encode("ascii"))
    logs = replay(test, n, seed=k, order=k)
    return "Demo %d\n" % k + report(test, litmus.kinds(test), logs, n, "both", shows_hits=False)


def conversion(test, kinds):
    """What `convert` writes."""
    lines = ["Test " + test.name, "Threads %d" % len(test.bodies)]
    reads = []
    for t, body in enumerate(test.bodies):
        for place, action in enumerate(body):
            if action.kind in ("store", "exchange"):
                stores = [(t, place) for t, place, _ in test.stores(action.loc)]
                lines.append("Store P%d %d %s value %d*n+%d" % (t, place, test.locations[action.loc], len(stores), 1 + stores.index((t, place))))
            if action.kind in ("load", "exchange"):
                reads.append("Read P%d %d %s column %d" % (t, place, test.locations[action.loc], test.column(t, place)))
    lines += reads
    for number, kind in enumerate(kinds, 1):
        asks = {"rf": "value >= %d*m+%d, value mod %d = %d" % (kind.k, kind.a, kind.k, kind.a % kind.k),
                "exact": "value = %d*m+%d" % (kind.k, kind.a), "fr": "value < %d*m+1" % kind.k}[kind.form]
        lines.append("Atom %d %s P%d column %d from P%d: %s" % (number, kind.form, kind.reader, kind.column, kind.writer, asks))
    return "\n".join(lines) + "\n"
