"""Why an outcome is forbidden, as `perple_tool verdict` and `show` say it, read aloud: the edges of a cycle with their names and a
sentence each, a hidden store, and the two cases of a split."""
import collections
import re
import textwrap

from drawing import INK, LETTER, MARGIN, PALE, SOURCE, WRITE, Drawing

# A node is a thread and a place. An edge says that the first comes before the second.
Edge = collections.namedtuple("Edge", "first second name sentence")
# One side of a choice: the other write is before the source of the read, or else after the read.
Side = collections.namedtuple("Side", "reader source other is_before")
Cycle = collections.namedtuple("Cycle", "group edges")
Hidden = collections.namedtuple("Hidden", "group store read sentence")
Split = collections.namedtuple("Split", "group reader source other before after")

COLUMNS = 4  # threads beside one another
ROW = 30
COLOURS = {"program order": INK, "reads-from": SOURCE, "from-read": WRITE}


class NoReason(Exception):
    """Why an answer is no reason, in one line."""


def node_name(node):
    return "P%d %d" % node


class Reasons:
    """The reasons of an answer for a test."""

    def __init__(self, text):
        self.text, self.test = text, text.test

    def read(self, answer):
        """A tree for each conjunction."""
        lines = [line.split() for line in answer.splitlines() if line.strip()]
        if not lines or lines[0] not in (["Forbidden"], ["Forbidden", "as", "written"]):
            begins = "begins with " + lines[0][0] if lines else "is empty"
            raise NoReason("there is no verdict that forbids: the input " + begins)
        self.left, trees = lines[1:], []
        for group in range(len(self.test.ends)):
            trees.append(self.tree(group, ()))
        if self.left:
            raise NoReason("a line too many: " + " ".join(self.left[0]))
        return trees

    def tree(self, group, sides):
        if not self.left:
            raise NoReason("conjunction %d has no reason" % group)
        words = self.left.pop(0)
        nodes = self.nodes(words[2:])
        if len(words) < 2 or words[1] != str(group):
            raise NoReason("this is no reason of conjunction %d: %s" % (group, " ".join(words)))
        if words[0] == "Cycle" and len(nodes) >= 2:
            return Cycle(group, [self.edge(group, first, second, sides) for first, second in zip(nodes, nodes[1:] + nodes[:1])])
        if words[0] == "Hidden" and len(nodes) == 2:
            return Hidden(group, *nodes, self.hidden(*nodes))
        if words[0] == "Split" and len(nodes) == 3:
            before = self.tree(group, sides + (Side(*nodes, True),))
            return Split(group, *nodes, before, self.tree(group, sides + (Side(*nodes, False),)))
        raise NoReason("this is no reason: " + " ".join(words))

    def nodes(self, words):
        found = []
        for name, place in zip(words[::2], words[1::2]):
            if not re.fullmatch(r"P\d", name) or not place.isdigit() or int(name[1:]) >= len(self.test.bodies) \
                    or int(place) >= len(self.test.bodies[int(name[1:])]):
                raise NoReason("there is no action %s %s" % (name, place))
            found.append((int(name[1:]), int(place)))
        if len(words) % 2:
            raise NoReason("an action has a thread and a place: " + " ".join(words))
        return found

    # ---- words

    def action(self, node):
        return self.test.bodies[node[0]][node[1]]

    def words(self, node):
        """An action in words; a read is told by its register where its thread reads the location again."""
        action, body = self.action(node), self.test.bodies[node[0]]
        location = "" if action.loc is None else self.test.locations[action.loc]
        again = sum(other.kind == "load" and other.loc == action.loc for other in body) > 1
        into = " into " + action.reg.upper() if again and action.reg else ""
        return "P%d's %s" % (node[0], {
            "store": "write of %s to %s" % (action.value, location), "load": "read of " + location + into,
            "exchange": "exchange of %s for %s" % (location, action.value), "fence": "fence"}[action.kind])

    def is_write(self, node):
        return self.action(node).kind in ("store", "exchange")

    def edge(self, group, first, second, sides):
        if first[0] == second[0]:
            name, why = self.kept(first, second)
        else:
            name, why = self.across(group, first, second, sides)
        comes = "reaches memory before" if self.action(first).kind == "store" else "comes before"
        reaches = "" if self.action(second).kind != "store" else " does" if self.action(first).kind == "store" else " reaches memory"
        return Edge(first, second, name, "%s %s %s%s: %s." % (self.words(first), comes, self.words(second), reaches, why))

    def kept(self, first, second):
        """Why program order is kept between two actions of a thread."""
        kinds = (self.action(first).kind, self.action(second).kind)
        between = {action.kind for action in self.test.bodies[first[0]][first[1] + 1:second[1]]}
        if first[1] >= second[1] or "fence" in kinds:
            raise NoReason("%s is not kept before %s" % (node_name(first), node_name(second)))
        if kinds == ("store", "load"):
            by = next((kind for kind in ("fence", "exchange") if kind in between), None)
            if by is None:
                raise NoReason("nothing keeps %s before %s" % (node_name(first), node_name(second)))
            return "program order, kept by the " + by, "the %s between them waits until the buffer is empty" % by
        if kinds[0] == "exchange":
            return "program order", "an exchange writes to memory at once, and what follows comes later"
        if kinds[0] == "load":
            return "program order", "a read is over before the next instruction begins"
        if kinds[1] == "exchange":
            return "program order, kept by the exchange", "an exchange waits until the buffer is empty"
        return "program order", "writes leave the buffer in the order in which they came"

    def across(self, group, first, second, sides):
        """Why an action of one thread comes before one of another."""
        if self.action(first).loc != self.action(second).loc:
            raise NoReason("%s and %s are of different locations" % (node_name(first), node_name(second)))
        for atom in self.test.conjunctions()[group]:
            reader, source = self.asked(atom)
            said = "%d:%s=%d" % (atom.thread, atom.reg.upper(), atom.value)
            if first == source and second == reader:
                return "reads-from", "%s says that it reads this write, which was in memory then" % said
            if first == reader and source is None and self.is_write(second):
                return "from-read", "%s says that it still read the initial 0" % said
            if first == reader and source and second[0] == source[0] and second[1] > source[1] and self.is_write(second):
                return "from-read", "%s says that it read what P%d wrote before" % (said, second[0])
            if first[0] == reader[0] and second == source and self.is_write(first) and first[1] < reader[1]:
                return "own store first", "%s says that P%d reads the other's write, so its own one was overwritten" % (said, first[0])
        for side in sides:
            if side.is_before and (first, second) == (side.other, side.source):
                return "first side of the choice", "in this case it comes before the write that is read"
            if not side.is_before and (first, second) == (side.reader, side.other):
                return "second side of the choice", "in this case it comes after the read"
        raise NoReason("nothing puts %s before %s" % (node_name(first), node_name(second)))

    def asked(self, atom):
        """The read of an atom, and the store that it names; None for the initial value."""
        kept = self.test.held[atom.thread][atom.reg]
        if kept[0] != "read":
            raise NoReason("the condition asks for a register that is not read")
        reader = (atom.thread, kept[1])
        named = [(t, place) for t, place, value in self.test.stores(self.action(reader).loc) if value == atom.value]
        return reader, named[0] if named and atom.value else None

    def hidden(self, store, read):
        if store[0] != read[0] or not self.is_write(store) or self.action(store).loc != self.action(read).loc:
            raise NoReason("%s is not hidden from %s" % (node_name(store), node_name(read)))
        newer = [place for place in range(store[1] + 1, read[1])
                 if self.is_write((read[0], place)) and self.action((read[0], place)).loc == self.action(store).loc]
        if store[1] >= read[1]:
            return "%s never takes %s: that write is made only later." % (self.words(read), self.words(store))
        if not newer:
            raise NoReason("%s is not hidden from %s" % (node_name(store), node_name(read)))
        return "%s never takes %s: %s is newer, and hides it, in the buffer and in memory." % (
            self.words(read), self.words(store), self.words((read[0], newer[-1])))

    def split(self, tree):
        """The two cases of a split, as they are read aloud."""
        names = self.words(tree.other), self.words(tree.source), self.words(tree.reader)
        return ("Case 1: %s reaches memory before %s, which is read." % names[:2], "Case 2: %s reaches memory after %s." % names[::2])

    def ending(self, tree):
        """What a leaf comes to."""
        if isinstance(tree, Hidden):
            return "So no execution has this outcome."
        words = self.words(tree.edges[0].first)
        return "So %s would come before itself. Nothing does." % words


def leaves(tree, path=()):
    """The leaves of a tree, each with the cases that lead to it."""
    if isinstance(tree, Split):
        yield from leaves(tree.before, path + ((tree, 0),))
        yield from leaves(tree.after, path + ((tree, 1),))
    else:
        yield path, tree


# ---- pictures


class Program:
    """The text of a test in columns, on which arrows are drawn; more than four threads stand in two rows of columns."""

    def __init__(self, text, drawing, top):
        self.text, self.drawing, self.top = text, drawing, top
        threads = len(text.test.bodies)
        self.columns = COLUMNS if threads > COLUMNS else threads
        longest = max([len(cell) for row in text.rows for cell in row] + [6])
        self.pitch = LETTER * longest + 130
        self.block = ROW * (len(text.rows) + 1) + 44
        self.width = MARGIN + 40 + self.pitch * self.columns
        self.bottom = top + self.block * -(-threads // self.columns)

    def left(self, thread):
        return MARGIN + 40 + self.pitch * (thread % self.columns)

    def y(self, node):
        return self.top + self.block * (node[0] // self.columns) + ROW * (1 + self.text.row_of(*node))

    def right(self, node):
        return self.left(node[0]) + LETTER * len(self.text.instructions[node[0]][node[1]])

    def draw(self, marked):
        for thread in range(len(self.text.test.bodies)):
            top = self.top + self.block * (thread // self.columns)
            self.drawing.text(self.left(thread), top, "P%d" % thread, bold=True)
            for number, row in enumerate(self.text.rows):
                if row[thread]:
                    self.drawing.text(self.left(thread), top + ROW * (number + 1), row[thread])
        for node in sorted(marked):
            left = self.left(node[0]) - 5
            self.drawing.box(left, self.y(node) - 16, self.right(node) - left + 5, 23, PALE)

    def arrow(self, first, second, number, colour):
        y1, y2 = self.y(first) - 5, self.y(second) - 5
        if first[0] == second[0]:
            x, out = self.left(first[0]) - 7, self.left(first[0]) - 34
            self.drawing.path("M%g,%g C%g,%g %g,%g %g,%g" % (x, y1, out, y1, out, y2, x, y2), colour, 1.6, True)
            self.drawing.number(out + 7, (y1 + y2) / 2, number, colour)
            return
        goes_right = self.left(first[0]) < self.left(second[0])
        same = self.left(first[0]) == self.left(second[0])
        x1 = self.right(first) + 7 if goes_right or same else self.left(first[0]) - 7
        x2 = self.right(second) + 7 if same or not goes_right else self.left(second[0]) - 7
        if abs(self.left(first[0]) - self.left(second[0])) > self.pitch * 1.5:
            self.below(x1, y1, x2, y2, number, colour)
            return
        self.drawing.line(x1, y1, x2, y2, colour, 1.6, True)
        self.drawing.number(x1 + (x2 - x1) * 0.3, y1 + (y2 - y1) * 0.3, number, colour)

    def below(self, x1, y1, x2, y2, number, colour):
        """An arrow past other columns goes under them."""
        low, lean = self.low(max(y1, y2)), 60 if x1 < x2 else -60
        self.drawing.path("M%g,%g C%g,%g %g,%g %g,%g S%g,%g %g,%g"
                          % (x1, y1, x1 + lean / 3, low, x1 + lean, low, (x1 + x2) / 2, low, x2 - lean / 3, low, x2, y2), colour, 1.6, True)
        self.drawing.number((x1 + x2) / 2, low, number, colour)

    def low(self, y):
        """Under the last row of the block in which a height is."""
        return self.top + self.block * (1 + int((y - self.top) // self.block)) - 26


def colour_of(edge):
    return COLOURS.get(edge.name.split(",")[0], WRITE)


def leaf_picture(text, tree, drawing=None, top=26):
    """A leaf over the program text: the drawing, its width and how far down it goes."""
    drawing = drawing or Drawing()
    program = Program(text, drawing, top)
    if isinstance(tree, Hidden):
        program.draw({tree.store, tree.read})
        program.arrow(tree.read, tree.store, "?", WRITE)
    else:
        program.draw({node for edge in tree.edges for node in edge[:2]})
        for number, edge in enumerate(tree.edges, 1):
            program.arrow(edge.first, edge.second, number, colour_of(edge))
    return drawing, program.width, program.bottom


def paragraph(drawing, y, words, width, colour=INK):
    for line in textwrap.wrap(words, int((width - 2 * MARGIN) / LETTER)):
        drawing.text(MARGIN, y, line, colour)
        y += 19
    return y + 5


def picture(text, answer, title="", font="monospace"):
    """All reasons of an answer, one under the other, each with its sentences."""
    reasons, drawing, y = Reasons(text), Drawing(font), 52
    trees = reasons.read(answer)
    title = title or text.test.name
    words = LETTER * max(len(text.condition), 1.35 * len(title))
    width = max(Program(text, drawing, 0).width + MARGIN, 2 * MARGIN + words, 660)
    drawing.text(MARGIN, 26, title, bold=True, size=17)
    drawing.text(MARGIN, 48, text.condition)
    for tree in trees:
        for path, leaf in leaves(tree):
            y += 12
            if len(trees) > 1:
                asked = text.test.conjunctions()[leaf.group]
                y = paragraph(drawing, y + 18, " /\\ ".join("%d:%s=%d" % (a.thread, a.reg.upper(), a.value) for a in asked), width)
            for split, case in path:
                y = paragraph(drawing, y + 18, reasons.split(split)[case], width)
            _, _, y = leaf_picture(text, leaf, drawing, y + 30)
            if isinstance(leaf, Hidden):
                y = paragraph(drawing, y, leaf.sentence, width)
            else:
                for number, edge in enumerate(leaf.edges, 1):
                    y = paragraph(drawing, y, "%d  %s (%s)" % (number, edge.sentence, edge.name), width, colour_of(edge))
            y = paragraph(drawing, y, reasons.ending(leaf), width)
    return drawing.svg(width, y + 10)
