"""Why a program refused its words or its input, and what to do: the place in the text, and what the pages of docs/ say of such a refusal.

The place is found by tools/litmus.py and tools/judging.py, which share nothing with the programs. What is met and what to do about
it stand in the pages alone; here is how each of these is recognised."""
import collections
import re

import advice
import commands
import judging
import litmus

MOST_SHOWN = 100  # the columns of a line that are shown around its mark
EVENTS, LOGS, EXECUTION = b"%events", b"%logs", b"%execution"
SECTIONS = {"judge": EVENTS, "order": LOGS, "check": EXECUTION}
HEXADECIMAL = rb"\$?0[xX][0-9A-Fa-f]"
SECTION_LINE = rb"(?m)^[ \t]*%(?:events|logs)[ \t]+([0-9]+)[ \t\r]*$"
# registers that are not read: those of 64, 16 and 8 bits, and those of the stack
NO_REGISTER = rb"(?i)(?<!\[)\b(r([abcd]x|[sd]i|[sb]p|[0-9]+[dwb]?)|e[sb]p|[abcd][xlh]|[sd]il?|[sb]pl?)\b"

# where something is met: its first byte in the whole input, or None, and how many bytes of it are marked
Place = collections.namedtuple("Place", "at size")
# What is met: the number or the status whose part of FORMAT has it, the first words of its row there, and whether a text has it.
# `where` has the line (in bytes), what stands in it from the place on, and the whole text.
Cause = collections.namedtuple("Cause", "part row is_met")
Where = collections.namedtuple("Where", "line rest text")


def begins(pattern):
    return lambda where: re.match(pattern, where.rest) is not None


def has(pattern):
    return lambda where: re.search(pattern, where.line) is not None


CAUSES = (
    Cause(1, "a byte order mark", lambda where: where.text.startswith(b"\xef\xbb\xbf")),
    Cause(1, "an empty line or a comment", lambda where: re.match(rb"\s*(\n|\(\*|#|//)", where.text) is not None),
    Cause(1, "`X86_64`", begins(rb"X86_64\b")),
    Cause(2, "a name of several words", lambda where: where.line.startswith(b"X86") and len(where.line.split()) != 2),
    Cause(3, "a hexadecimal number", has(HEXADECIMAL)),
    Cause(3, "a value that is a location", has(rb"[0-9]+:\w+=[A-Za-z_]")),
    Cause(4, "a register of a thread", begins(rb"[0-9]+\s*:")),
    Cause(5, "`filter`", lambda where: re.search(rb"\bfilter\b", where.text) is not None),
    Cause(6, "a hexadecimal number", lambda where: re.search(HEXADECIMAL, cell_in(where)) is not None),
    Cause(6, "a register of another size", lambda where: re.search(NO_REGISTER, cell_in(where)) is not None),
    Cause(6, "`LOCK XCHG`", begins(rb"(?i)lock\s")),
    Cause(6, "`SFENCE` or `LFENCE`", begins(rb"(?i)[sl]fence\b")),
    Cause(8, "a hexadecimal number", has(HEXADECIMAL)),
    Cause(8, "`filter`", begins(rb"filter\b")),
    Cause(8, "no condition", lambda where: re.search(rb"\bexists\b|\bforall\b", where.text) is None),
    Cause(12, "a final `;`", begins(rb";")),
    Cause(12, "a hexadecimal number", has(HEXADECIMAL)),
    Cause(12, "a section line", begins(rb"%\w+")),
    Cause("Refusals", "a litmus text without a final line feed", lambda where: re.search(rb"[^\s]%(events|logs)", where.text) is not None),
    Cause("Refusals", "the section of another command", lambda where: any(map(judging.iterations, re.findall(SECTION_LINE, where.text)))),
    Cause("Refusals", "a section line with no number", lambda where: re.search(rb"(?m)^\s*%(events|logs)\b", where.text) is not None),
    Cause("Refusals", "no section at all", lambda where: re.search(rb"%(events|logs)", where.text) is None),
)


def cell_in(where):
    return re.split(rb"[|;\n]", where.rest)[0]


# ---- what is met, by the pages


def advice_of_kind(number, where):
    """What FORMAT says of a kind of refusal, and of what is met here."""
    name = litmus.KINDS[number - 1]
    text = advice.part(advice.page("FORMAT.md"), "%d %s" % (number, name))
    means, then = advice.paragraphs(text)
    met = met_rows(text, number, where)
    return ["FORMAT.md, %d %s:" % (number, name)] + means + (met or then)


def met_rows(text, part_of, where):
    """The rows of what is met, the first of them alone: the causes stand in the order in which they are likely."""
    cause = next((cause for cause in CAUSES if cause.part == part_of and cause.is_met(where)), None)
    if cause is None:
        return []
    met, instead = row_of_cause(text, cause)
    return ["Here: %s. %s" % (met, instead)]


def row_of_cause(text, cause):
    """What is met and what to do about it, as the page has it."""
    return next(row for row in advice.rows(text) if len(row) == 2 and row[0].startswith(cause.row))


# ---- places in the text


def line_at(text, number):
    """Where a line begins, and its bytes."""
    begin = 0
    for _ in range(number - 1):
        found = text.find(b"\n", begin)
        if found < 0:
            break
        begin = found + 1
    return begin, text[begin:].split(b"\n", 1)[0]


def number_of_line(text, at):
    return 1 + text.count(b"\n", 0, at)


def shown(name, text, line, place):
    """A line with its number, and below it the mark."""
    begin, data = line_at(text, line)
    if place is None:
        return ["%s:%d:" % (name, line), "    " + advice.printed(data[:MOST_SHOWN])]
    at = min(place.at - begin, len(data))
    first = max(0, at - MOST_SHOWN // 2) if len(data) > MOST_SHOWN else 0
    before, marked = advice.printed(data[first:at]), advice.printed(data[at:at + place.size]) or " "
    row = before + advice.printed(data[at:first + MOST_SHOWN])
    under = re.sub(r"[^\t]", " ", before) + "^" * max(1, min(len(marked), MOST_SHOWN))
    return ["%s:%d:" % (name, line), "    " + row, "    " + under]


def size_at(text, at, kind=None):
    """How many bytes are marked: of an instruction all of it, of a section line its words, else a word."""
    if kind in (6, 7):
        return max(1, len(re.match(rb"[^|;\n]*", text[at:])[0].rstrip()))
    return len(re.match(rb"[%A-Za-z0-9_]+|/\\|\\/|\xef\xbb\xbf|[^\n]?", text[at:])[0]) or 1


def place_in(text, line, refusal):
    """The place of a refusal, if the reader of tools/litmus.py has the same one; else None."""
    if refusal is None or refusal.line.strip() != line:
        return None
    if refusal.at is None:
        return Place(len(text.rstrip(b"\n")), 1)
    found = re.search(r"kind (\d+)", refusal.line) if refusal.status == 5 else None
    if refusal.status == 6:
        return Place(refusal.at, len(re.match(rb"[0-9]+\s*:\s*\w+\s*=\s*\$?\s*[0-9]+", text[refusal.at:])[0]))
    return Place(refusal.at, size_at(text, refusal.at, int(found[1]) if found else None))


def refusal_of(text):
    """What tools/litmus.py refuses a litmus text with, or None."""
    try:
        litmus.kinds(litmus.read(text))
    except litmus.Refused as refused:
        return refused
    return None


def litmus_part(command, text):
    """The part of an input that is the litmus text."""
    name = SECTIONS.get(command)
    if name is None:
        return text
    try:
        return judging.split(text, name)[0]
    except litmus.Refused:
        return text


# ---- what is said of each status


class Refusal:
    """A refused call: the name of the input, its words, the input, and the line that the program wrote."""

    def __init__(self, name, words, text, line):
        self.name, self.words, self.text, self.line = name, words, text, line
        self.command = words[0] if words else ""
        self.litmus = litmus_part(self.command, text)

    def where(self, line, place):
        _, data = line_at(self.text, line)
        return Where(data, self.text[place.at:] if place else data, self.text)

    def kind(self):
        """A text of another form."""
        found = re.match(r"perple: line (\d+): kind (\d+)", self.line)
        line, number = int(found[1]), int(found[2])
        place = place_in(self.litmus, self.line, refusal_of(self.litmus))
        return shown(self.name, self.text, line, place) + advice_of_kind(number, self.where(line, place))

    def atom(self):
        """An atom that cannot be counted."""
        number = int(re.search(r"kind (\d+)", self.line)[1])
        place = place_in(self.litmus, self.line, refusal_of(self.litmus))
        row = advice.row_of(advice.part(advice.page("MODEL.md"), "7. What an atom asks"), str(number))
        says = ["MODEL.md, part 7: %s %s, the atom t:R=v where %s." % tuple(row[:3])] + ["Ask instead: %s." % cell for cell in row[3:]]
        return (shown(self.name, self.text, number_of_line(self.text, place.at), place) if place else []) + says

    def limit(self):
        """A limit of the text, of the section or of the frames."""
        name = self.line.split()[2]
        text = advice.page("FORMAT.md")
        place = place_in(self.litmus, self.line, refusal_of(self.litmus))
        marked = shown(self.name, self.text, number_of_line(self.text, place.at), place) if place and name != "input" else []
        if name in ("section", "events"):
            return self.of_section(self.line)
        row = advice.row_of(advice.part(text, "The limits"), name)
        says = ["FORMAT.md, The limits: %s, at most %s. Over it is %s." % tuple(row)]
        return marked + says + (self.frames() if name == "frames" else ["Make the test smaller, or split it."])

    def frames(self):
        threads = len(litmus.read(self.litmus).bodies)
        text = advice.part(advice.page("COMMANDS.md"), "How many iterations")
        table = dict(zip(*[advice.cells(line) for line in text.split("\n") if line.startswith("|") and "---" not in line]))
        after = [one for one in advice.paragraphs(text)[0] if one.startswith("With a greater N")]
        return ["Of %d threads N is at most %s." % (threads, table[str(threads)])] + after

    def of_section(self, line):
        """The row of FORMAT's refusals of sections."""
        status_rows = advice.rows(advice.part(advice.page("FORMAT.md"), "Refusals"))
        pattern = {"perple: section line": "10", "perple: no section": "9", "perple: limit section": "11", "perple: limit events": "12",
                   "perple: location": "13"}
        status = next(status for begin, status in pattern.items() if line.startswith(begin))
        row = next(row for row in status_rows if row[0] == status)
        return ["FORMAT.md, Refusals, status %s: it comes where %s." % (row[0], row[1])]

    def no_section(self):
        lines = self.text.split(b"\n")
        number = next((at for at, line in enumerate(lines, 1) if b"%events" in line or b"%logs" in line), None)
        marked = []
        if number:
            begin, data = line_at(self.text, number)
            marked = shown(self.name, self.text, number, Place(begin + data.index(b"%"), len(re.search(rb"%\w+", data)[0])))
        return marked + self.of_section(self.line) + met_rows(advice.part(advice.page("FORMAT.md"), "Refusals"), "Refusals", self.where(1, None))

    def section_line(self):
        number = int(self.line.split()[-1])
        begin, data = line_at(self.text, number)
        wrong, wanted = self.wrong_word(number, data)
        return shown(self.name, self.text, number, Place(begin + wrong.start(), len(wrong.group())) if wrong else Place(begin + len(data), 1)) \
            + self.of_section(self.line) + ([wanted] if wanted else [])

    def wrong_word(self, number, data):
        """The first word of a section's line that has not its form, or None for the line's end; and what has to stand there."""
        words = list(re.finditer(rb"[^ \t\r]+", data))
        if self.command == "judge":
            return wrong_in_event(words, True)
        if self.command == "check":
            return wrong_in_event(words, False)
        _, n, section, _ = judging.split(self.text, LOGS)
        return wrong_in_log(litmus.read(self.litmus), n, [line for line, _ in section].index(number) if words else None, words)

    def several_writers(self):
        test = litmus.read(self.litmus)
        loc = int(self.line.split()[2])
        stores = [test.actions_at[thread][place] for thread, place, _ in test.stores(loc)]
        marked = [line for at in stores for line in shown(self.name, self.text, number_of_line(self.text, at), Place(at, size_at(self.text, at, 6)))]
        return marked + self.of_section(self.line) + ["Here: the location `%s`, and its stores are those above." % test.locations[loc]]

    def of_status(self, status):
        """The row of COMMANDS."""
        row = advice.row_of(advice.part(advice.page("COMMANDS.md"), "Statuses"), str(status))
        return ["COMMANDS.md, Statuses: %d, %s." % (status, row[1])] if row else []


def wrong_in_event(words, has_iteration):
    """The first word of an event's line that has not its form, and what has to stand there."""
    numbers = ["the iteration"] * has_iteration + ["the place of the action"]
    if not words or not re.fullmatch(rb"P[0-9]{1,20}", words[0].group()) or int(words[0].group()[1:]) > litmus.MOST:
        return (words[0] if words else None), "Here stands P and the number of a thread, as `P0`."
    for at, name in enumerate(numbers, 1):
        if len(words) <= at or judging.number(words[at].group(), litmus.MOST) is None:
            return (words[at] if len(words) > at else None), "Here stands %s, a number up to %d." % (name, litmus.MOST)
    at = 1 + len(numbers)
    kind = words[at].group().decode("latin-1") if len(words) > at else None
    if kind not in ("push", "drain", "fence", "read", "exchange"):
        return (words[at] if kind else None), "Here stands `push`, `drain`, `fence`, `read` or `exchange`."
    if kind in ("read", "exchange"):
        at += 1
        if len(words) <= at or judging.number(words[at].group()) is None:
            return (words[at] if len(words) > at else None), "Here stands the value of the %s, a number up to %d." % (kind, 2 ** 64 - 1)
    return (words[at + 1] if len(words) > at + 1 else None), "Nothing follows here."


def wrong_in_log(test, n, at, words):
    """The first word of a log's line that has not its form, and what has to stand there."""
    if at is not None and at >= len(test.bodies):
        return words[0], "The test has %d threads, and each has its log: nothing follows." % len(test.bodies)
    if at is None or words[0].group() != b"P%d" % at:
        return (words[0] if words else None), "Here stands the log of a thread: `P0`, then `P1` and so on."
    reads = len(judging.columns_of(test.bodies[at]))
    wanted = "The log of P%d has %d values, the reads of its body in %d iterations; here are %d." % (at, reads * n, n, len(words) - 1)
    wrong = next((word for word in words[1:] if judging.number(word.group()) is None), None)
    if wrong:
        return wrong, "Here stands a value, a number up to %d." % (2 ** 64 - 1)
    if len(words) - 1 == reads * n:
        return None, "The log of P%d has to follow." % (at + 1)
    return (words[1 + reads * n] if len(words) - 1 > reads * n else None), wanted


# ---- runs that are wrong


class Execution(judging.State):
    """The machine over the test as it is written: values are those of the text, and there is one iteration."""

    def value(self, thread, iteration, place):
        return self.test.bodies[thread][place].value


def events_of_execution(section):
    found = []
    for line, words in section:
        event = judging.event_of(words[:1] + [b"0"] + words[1:])
        if event is None:
            raise judging.bad_line(line)
        found.append(event)
    return found


def run_of(command, text):
    """The machine before the first event of a run, its events, their lines, and whether they name iterations."""
    litmus_text, n, section, last = judging.split(text, SECTIONS[command])
    test = litmus.read(litmus_text)
    machine = Execution(test, 1) if command == "check" else judging.State(test, n)
    events = events_of_execution(section) if command == "check" else judging.events_of(section)
    return machine, events, [line for line, _ in section] + [last], command != "check"


def wrong(name, command, text, answer):
    """What is wrong with a run of which `judge` or `check` says so."""
    machine, events, lines, has_iteration = run_of(command, text)
    at, kind = (int(found) for found in re.match(r"Wrong (\d+) kind (\d+)", answer).groups())
    for event in events[:at - 1]:
        machine.do(event)
    if at > len(events):
        return ["%s: the run ends here, and something is left to do." % name] + left(machine, has_iteration)
    line = lines[at - 1]
    begin, data = line_at(text, line)
    words = list(re.finditer(rb"[^ \t\r]+", data))
    word = words[-1] if kind == 5 else words[0]
    says = {1: names_nothing, 2: out_of_order, 3: not_oldest, 4: not_empty, 5: other_value}[kind]
    marked = Place(begin + word.start(), len(word.group())) if kind == 5 else Place(begin + words[0].start(), len(data.rstrip()) - words[0].start())
    return shown(name, text, line, marked) + says(machine, events[at - 1], has_iteration)


def told(thread, iteration, place, kind, has_iteration):
    """An event, as a line has it, but for its value."""
    return "P%d %s%d %s" % (thread, "%d " % iteration if has_iteration else "", place, kind)


def next_of(machine, thread, has_iteration):
    """What the machine takes next of a thread, its writes that wait left aside; None where its bodies are done."""
    body = machine.test.bodies[thread]
    if machine.done[thread] == machine.n * len(body):
        return None
    iteration, place = divmod(machine.done[thread], len(body))
    return told(thread, iteration, place, judging.ACTS[body[place].kind], has_iteration)


def oldest_of(machine, thread, has_iteration):
    buffer = machine.buffers[thread]
    return told(thread, *buffer[0][2:], "drain", has_iteration) if buffer else None


def left(machine, has_iteration):
    found = []
    for thread in range(len(machine.test.bodies)):
        for event in (next_of(machine, thread, has_iteration), oldest_of(machine, thread, has_iteration)):
            found += ["Still to come is `%s`." % event] if event else []
    return found


def names_nothing(machine, event, has_iteration):
    thread, iteration, place = event[:3]
    threads = len(machine.test.bodies)
    if thread >= threads:
        return ["The test has no thread P%d: its threads are P0 to P%d." % (thread, threads - 1)]
    if iteration >= machine.n:
        return ["There is no iteration %d: there are %d, counted from 0." % (iteration, machine.n)]
    return ["P%d has no action %d: its body has %d, counted from 0." % (thread, place, len(machine.test.bodies[thread]))]


def out_of_order(machine, event, has_iteration):
    due = next_of(machine, event[0], has_iteration)
    return ["The next action of P%d is `%s`." % (event[0], due) if due else "P%d has done all of its actions." % event[0]]


def not_oldest(machine, event, has_iteration):
    oldest = oldest_of(machine, event[0], has_iteration)
    return ["The oldest write that waits in P%d's buffer is that of `%s`." % (event[0], oldest) if oldest
            else "No write waits in P%d's buffer." % event[0]]


def not_empty(machine, event, has_iteration):
    waiting = ["`%s`" % told(event[0], *write[2:], "drain", has_iteration) for write in machine.buffers[event[0]]]
    return ["The writes that wait in P%d's buffer have to drain first: %s." % (event[0], ", ".join(waiting))]


def other_value(machine, event, has_iteration):
    thread, _, place, kind, _ = event
    loc = machine.test.bodies[thread][place].loc
    own = [value for x, value, _, _ in machine.buffers[thread] if x == loc]
    value = own[-1] if own and kind == "read" else machine.memory[loc]
    whence = "the newest write to it in P%d's own buffer" % thread if own and kind == "read" else "memory"
    return ["The machine gives %d there: the value of `%s` in %s." % (value, machine.test.locations[loc], whence)]


# ---- altogether


def of_call(name, program, words, text, status, out, line):
    """What there is to say of a call of a program, line by line; nothing of one that went well."""
    if status == 0:
        is_judged = words and words[0] in ("judge", "check") and out.startswith("Wrong ")
        return wrong(name, words[0], text, out) if is_judged else []
    if status == 2:
        return commands.wrong_words(program, words)
    refusal = Refusal(name, words, text, line)
    says = {5: refusal.kind, 6: refusal.atom, 7: refusal.limit, 9: refusal.no_section, 10: refusal.section_line,
            11: refusal.limit, 12: refusal.limit, 13: refusal.several_writers}.get(status)
    return says() if says else refusal.of_status(status)
