"""The page of a test, as one HTML file: what `tools/page` and `tools/pages` write.

The table of outcomes is that of `perple_tool outcomes`, and verdicts, runs and cycles are those of `perple_tool show`. Where `show` gives
no run of an outcome, one is searched for in Python. Each run that stands in the page was judged legal by `perple_tool judge`, and has its
row at its end."""
import collections
import json
import os
import re
from html import escape

import cycles
import exploring
import listing
import litmus
import program_text
import programs

MOST_ROWS = 64
MOST_LEAVES = 16
HERE = os.path.dirname(os.path.realpath(__file__))
LISTED = "Listed by perple_tool outcomes: these are all, and each is the outcome of an execution; proved."

# What is said of an event, here and in the page's own program.
SENTENCES = {
    "start": "Nothing has happened yet: memory is 0 everywhere, and all buffers are empty.",
    "push": "{P}'s write of {w} to {x} enters its buffer.",
    "drain": "{P}'s write of {w} to {x} leaves its buffer: memory has {x}={w}.",
    "memory": "{P} reads {x} from memory: {r}={v}.",
    "buffer": "{P} reads {x} from its own buffer, where its newest write to {x} waits: {r}={v}.",
    "fence": "{P}'s fence is done: its buffer is empty.",
    "exchange": "{P}'s exchange reads {x} from memory and writes {w} to it in one step: {r}={v}.",
}

# A row of the table of outcomes: its values, whether it has the condition, whether only store buffers make it possible, and
# the events of a run with whose it is; None for both where no run was found.
Row = collections.namedtuple("Row", "values has_condition is_relaxed events by")


class NoPage(Exception):
    """Why there is no page, in one line."""


class Page:
    """What is known of a test."""

    def __init__(self, text):
        self.text, self.test = text, text.test
        self.answer = self.show(text.raw)
        self.rows, self.left_out, self.refusal, self.registers = [], 0, "", []
        self.states, self.marks_relaxed = None, False  # every outcome, where they are listed
        try:
            listed = listing.outcomes(text.raw)
            self.registers, self.states = listed.registers, listed.states
            self.list_rows()
        except listing.NotListed as why:
            self.refusal = str(why)
            self.shown_row()
        self.reasons = self.forbidden()

    def show(self, raw):
        return programs.run("perple_tool", ["show"], raw)

    # ---- outcomes and runs

    def list_rows(self):
        strong, runs = self.strong_states(), exploring.Runs(self.test, self.registers)
        states = sorted(self.states, key=lambda state: not self.has_condition(state))
        self.left_out = max(0, len(states) - MOST_ROWS)
        for state in states[:MOST_ROWS]:
            events, by = self.run_of(state, runs)
            self.rows.append(Row(state, self.has_condition(state), strong is not None and state not in strong, events, by))
        self.marks_relaxed = strong is not None

    def has_condition(self, state):
        return litmus.satisfies(self.test, self.registers, state)

    def strong_states(self):
        """The outcomes of the test with a fence behind each store; None where they are not listed."""
        fenced = self.text.fenced()
        try:
            return fenced and set(listing.outcomes(fenced).states)
        except listing.NotListed:
            return None

    def shown_row(self):
        """Where the outcomes are not listed: the run of `show`, if it gives one."""
        status, out, _ = self.answer
        if status == 0 and out.startswith("%events"):
            events, self.registers = exploring.shown(out), litmus.asked(self.test)
            state = exploring.final(self.test, self.registers, events)
            self.judge(events)
            self.rows = [Row(state, self.has_condition(state), False, events, "show")]

    def run_of(self, state, runs):
        """A run for a row: that of `show` of the test with the row as its condition; where it gives none, one that is searched for."""
        row = [(thread, reg, value) for (thread, reg), value in zip(self.registers, state)]
        status, out, _ = self.show(self.text.conditioned([row])) if len(row) <= 32 else (1, "", "")
        by = "show" if status == 0 and out.startswith("%events") else "search"
        events = exploring.shown(out) if by == "show" else runs.run(state)
        if events is None:
            return None, None
        if exploring.final(self.test, self.registers, events) != state:
            raise NoPage("the run of a row has another outcome: %s" % (state,))
        self.judge(events)
        return events, by

    def judge(self, events):
        given = self.text.raw.rstrip(b"\n") + b"\n" + exploring.section(self.test, events)
        status, out, err = programs.run("perple_tool", ["judge"], given)
        if status != 0 or not out.startswith("Legal "):
            raise NoPage("a run is not legal: %s" % (out + err).strip())

    # ---- what is forbidden

    def forbidden(self):
        """For each conjunction that no outcome has, in the order of the condition: its number, and its tree or why there is none."""
        if self.states is None:
            if not self.answer[1].startswith("Forbidden"):
                return []
            groups = range(len(self.test.ends))
        else:
            groups = [number for number, group in enumerate(self.test.conjunctions())
                      if not any(litmus.has(group, self.registers, state) for state in self.states)]
        return [(group, *self.reason(group)) for group in groups]

    def reason(self, group):
        """The text with this conjunction alone, and the tree of `show`, or what it says instead."""
        alone = program_text.Text(self.text.conditioned([self.test.conjunctions()[group]]))
        status, out, err = self.show(alone.raw)
        if status != 0 or not out.startswith("Forbidden"):
            return alone, None, (out or err).strip().split("\n")[0]
        return alone, cycles.Reasons(alone).read(out)[0], ""

    def verdict(self):
        """A word, and the sentence that says on whose word it is."""
        status, out, err = self.answer
        if status == 0 and out.startswith("%events"):
            return "Allowed", "perple_tool show gives a legal run with this outcome, so x86-TSO allows it."
        if status == 0 and out.startswith("Forbidden"):
            return "Forbidden", "perple_tool show has a reason for each conjunction: no execution has this outcome."
        said = "perple_tool show says: %s." % (out or err).strip().split("\n")[0]
        if self.states is None:
            return "Open", said
        if any(map(self.has_condition, self.states)):
            return "Allowed", "perple_tool outcomes lists an outcome with it, so x86-TSO allows it."
        return "Forbidden", "perple_tool outcomes lists every outcome, and none has it."


# ---- what is written


def condition_of(group):
    return " /\\ ".join("%d:%s=%d" % (atom.thread, atom.reg.upper(), atom.value) for atom in group)


def element(tag, words, **more):
    return "<%s%s>%s</%s>" % (tag, attributes(more), words, tag)


def attributes(more):
    return "".join(' %s="%s"' % (name.rstrip("_").replace("_", "-"), escape(str(value), quote=True)) for name, value in more.items())


def told(test, events):
    """Each event of a run in a sentence."""
    walk = exploring.Walk(test)
    return [sentence(walk, event) for event in events]


def sentence(walk, event):
    action = walk.test.bodies[event.thread][event.place]
    waits = any(write[0] == action.loc for write in walk.state.buffers[event.thread])
    rank = walk.step(event)[4]
    kind = {"read": "buffer" if waits else "memory"}.get(event.kind, event.kind)
    return SENTENCES[kind].format(P="P%d" % event.thread, x="" if action.loc is None else walk.test.locations[action.loc], w=action.value,
                                  r=(action.reg or "").upper(), v=None if rank is None else walk.own_value(action.loc, rank))


def program_table(text):
    head = "".join(element("th", "P%d" % thread, scope="col") for thread in range(len(text.test.bodies)))
    places, rows = [0] * len(text.test.bodies), []
    for row in text.rows:
        cells = []
        for thread, cell in enumerate(row):
            more = {}
            if program_text.is_action(cell):
                more["id"] = "i%d-%d" % (thread, places[thread])
                places[thread] += 1
            cells.append(element("td", element("code", escape(cell)) if cell else "", **more))
        rows.append(element("tr", "".join(cells)))
    return '<table id="program"><caption>The test</caption><thead><tr>%s</tr></thead>\n<tbody>%s</tbody></table>' % (head, "\n".join(rows))


def outcome_table(page):
    head = ["", *("%d:%s" % (thread, reg.upper()) for thread, reg in page.registers), ""]
    rows = []
    for number, row in enumerate(page.rows, 1):
        marks = [mark("condition", "has the condition")] * row.has_condition
        marks += [mark("relaxed", "not without store buffers")] * row.is_relaxed
        cells = [element("th", str(number), scope="row")] + [element("td", str(value)) for value in row.values]
        rows.append(element("tr", "".join(cells) + element("td", " ".join(marks)), id="row%d" % number,
                            class_="has" if row.has_condition else "other"))
    for group, _, tree, _ in page.reasons:
        words = element("code", escape(condition_of(page.test.conjunctions()[group])))
        rows.append(element("tr", element("th", "") + element(
            "td", '%s <a href="#why%d">%s</a>' % (words, group, mark("forbidden", "why")), colspan=len(page.registers) + 1), class_="never"))
    return '<div class="rows"><table id="outcomes"><thead><tr>%s</tr></thead>\n<tbody>%s</tbody></table></div>' % (
        "".join(element("th", word, scope="col") for word in head), "\n".join(rows))


def mark(word, title):
    return element("span", word, class_="mark " + look_of(word), title=title)


def look_of(word):
    """The style's name of a verdict or a mark."""
    return word.lower().replace(" ", "-")


def notes(page):
    said = []
    if page.refusal:
        said.append("The outcomes are not listed: %s." % page.refusal)
    else:
        said.append(LISTED)
    if page.left_out:
        said.append("%d more outcomes are left out." % page.left_out)
    if any(row.is_relaxed for row in page.rows):
        said.append("Relaxed are outcomes that the same test with a fence behind each write has not.")
    elif not page.refusal and not page.marks_relaxed:
        said.append("With a fence behind each write the test has over sixteen actions in a thread, so relaxed outcomes are not marked.")
    return element("p", escape(" ".join(said)), class_="note")


def leaf(text, reasons, tree):
    """A cycle or a hidden store, over the program text, with its sentences."""
    drawing, width, bottom = cycles.leaf_picture(text, tree)
    parts = ['<div class="picture">%s</div>' % drawing.svg(width, bottom + 4, "The program text with the numbered arrows that follow")]
    if isinstance(tree, cycles.Hidden):
        parts.append(element("p", escape(tree.sentence)))
    else:
        parts.append(element("ol", "".join(element("li", "%s <small>%s</small>" % (escape(edge.sentence), escape(edge.name)))
                                           for edge in tree.edges)))
    return "\n".join(parts + [element("p", escape(reasons.ending(tree)))])


def why(page, group, text, tree, said):
    asked = element("code", escape(condition_of(page.test.conjunctions()[group])))
    title = element("h3", "Why never: " + asked)
    if tree is None:
        body = element("p", escape("perple_tool outcomes lists every outcome, and none has it. perple_tool show gives no reason: %s." % said))
    else:
        reasons, parts = cycles.Reasons(text), []
        found = list(cycles.leaves(tree))
        for path, end in found[:MOST_LEAVES]:
            parts += [element("p", escape(reasons.split(split)[case]), class_="case") for split, case in path]
            parts.append(leaf(text, reasons, end))
        if len(found) > MOST_LEAVES:
            parts.append(element("p", "%d more cases are left out." % (len(found) - MOST_LEAVES)))
        body = "\n".join(parts)
    return '<section class="why" id="why%d">%s\n%s</section>' % (group, title, body)


def run_list(page):
    """The first run that there is, told; the page's program puts others in its place."""
    number = next((number for number, row in enumerate(page.rows) if row.events is not None), None)
    if number is None:
        return ""
    steps = "".join(element("li", escape(words)) for words in told(page.test, page.rows[number].events))
    return '<section id="steps"><h2>A run with outcome %d</h2><ol id="events">%s</ol></section>' % (number + 1, steps)


def constants(text, thread):
    """The constants that registers are made to hold: before which action, the register, the value."""
    found, place = [], 0
    for row in text.rows:
        given = re.fullmatch(r"mov\s+(\w+)\s*,\s*\$?\s*(\d+)", row[thread], re.I)
        if program_text.is_action(row[thread]):
            place += 1
        elif given:
            found.append([place, given[1].upper(), int(given[2])])
    return found


def atom_data(test, atom):
    """An atom: the place of the read that it asks for, or whether it holds where it asks for none."""
    kept = test.held[atom.thread][atom.reg] if atom.thread < len(test.bodies) else ("constant", None)
    words = "%d:%s=%d" % (atom.thread, atom.reg.upper(), atom.value)
    return {"words": words, "thread": atom.thread, "place": kept[1] if kept[0] == "read" else None,
            "value": atom.value, "holds": kept[0] == "constant" and kept[1] == atom.value}


def data(page):
    """What the page's program works with."""
    test = page.test
    bodies = [[{"kind": action.kind, "loc": action.loc, "value": action.value, "reg": action.reg and action.reg.upper()}
               for action in body] for body in test.bodies]
    runs = [row.events and " ".join("%d%s%d" % (event.thread, event.kind[0], event.place) for event in row.events) for row in page.rows]
    return {"name": test.name, "locations": test.locations, "bodies": bodies, "negated": test.negated, "runs": runs,
            "by": [row.by for row in page.rows], "sentences": SENTENCES, "instructions": page.text.instructions,
            "constants": [constants(page.text, thread) for thread in range(len(bodies))],
            "groups": [[atom_data(test, atom) for atom in group] for group in test.conjunctions()]}


def script(page):
    held = json.dumps(data(page), separators=(",", ":")).replace("<", "\\u003c")
    return '<script type="application/json" id="data">%s</script>\n<script>\n%s</script>' % (held, part("page.js"))


def part(name):
    with open(os.path.join(HERE, name)) as file:
        return file.read()


def html(page, style=None, home=""):
    """The whole file; `style` is a link to one, where it does not stand in the file."""
    text, (word, said) = page.text, page.verdict()
    looks = '<link rel="stylesheet" href="%s">' % style if style else "<style>\n%s</style>" % part("page.css")
    head = ('<meta charset="utf-8">\n<meta name="viewport" content="width=device-width, initial-scale=1">\n'
            "<title>%s</title>\n%s" % (escape(text.test.name), looks))
    quantified = " The test asks that it never happens." if text.test.negated else ""
    link = ' <a href="#why%d">Why?</a>' % page.reasons[0][0] if page.reasons else ""
    verdict = '<p class="verdict"><b class="%s">%s.</b> %s%s</p>' % (look_of(word), word, escape(said + quantified), link)
    title = '<header>%s<h1>%s</h1><p>%s</p>%s</header>' % (home, escape(text.test.name), escape(text.comment), verdict)
    asked = '<p id="condition"><code>%s</code></p>' % escape(text.condition)
    left = '<section id="machine">%s\n<div id="controls"></div>\n%s</section>' % (asked, program_table(text))
    right = '<section id="table"><h2>Outcomes</h2>%s\n%s</section>' % (outcome_table(page), notes(page))
    reasons = "\n".join(why(page, *reason) for reason in page.reasons)
    return ('<!doctype html>\n<html lang="en">\n<head>\n%s\n</head>\n<body%s>\n%s\n<main>\n%s\n'
            '<div id="side">%s\n%s</div>\n</main>\n%s\n%s\n</body>\n</html>\n'
            % (head, ' class="wide"' if len(text.test.bodies) > 4 else "", title, left, right, run_list(page), reasons, script(page)))
