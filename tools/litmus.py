"""A reader of litmus texts and of their atoms' kinds, written from docs/FORMAT.md and docs/MODEL.md alone and sharing nothing with the
program: what the scripts of bench/ compare the program's answers with, and how tools/explain finds the place of a refusal."""
import collections
import re

MOST = 4_294_967_295
MOST_BYTES = 65_536
REGISTERS = ("eax", "ebx", "ecx", "edx", "esi", "edi")
KINDS = ("NotX86", "Header", "Initial", "NonZeroInitial", "Column", "Instruction", "NotConstant", "Condition", "Forall", "MemoryCondition",
         "Disjunction", "Trailing")
PROFILE = ("NoSuchThread", "NotLoaded", "NoStore", "Ambiguous", "ZeroStored", "NoWriter", "SeveralWriters", "OwnWriter")
TOKEN = re.compile(rb"(?P<skipped>[ \t\r\n]+|\(\*[\s\S]*?\*\))|(?P<name>[A-Za-z_][A-Za-z0-9_]*)|(?P<number>[0-9]+)|(?P<open>\((?=\*))|"
                   rb"(?P<symbol>/\\|\\/|[()\[\]{};|,:=$~])|(?P<other>[\s\S])")

Token = collections.namedtuple("Token", "kind text line at")
Action = collections.namedtuple("Action", "kind loc value reg")  # kind: store, load, fence, exchange
Atom = collections.namedtuple("Atom", "thread reg value at", defaults=(None,))  # at: where it is in the text, if it is in one
Kind = collections.namedtuple("Kind", "form reader column writer k a place loc")  # form: rf, fr, exact


class Refused(Exception):
    """A status and the line that goes with it; and where in the text its cause stands, if that is a place."""

    def __init__(self, status, line, at=None):
        super().__init__(line)
        self.status, self.line, self.at = status, line, at


def bad(kind, line, at=None):
    return Refused(5, "perple: line %d: kind %d %s\n" % (line, kind, KINDS[kind - 1]), at)


def bad_token(kind, token):
    return bad(kind, token.line, token.at)


def over(name, limit, at=None):
    return Refused(7, "perple: limit %s %d\n" % (name, limit), at)


class Test:
    def __init__(self, name):
        self.name, self.locations, self.bodies, self.negated, self.atoms, self.ends = name, [], [], False, [], []
        self.held = []  # by thread: what each register holds, ("constant", value) or ("read", place)
        # where in the text each thread is named, each location for the first time, and by thread each action's cell
        self.threads_at, self.locations_at, self.actions_at = [], [], []

    def conjunctions(self):
        return [self.atoms[start:end] for start, end in zip([0] + self.ends, self.ends)]

    def column(self, thread, place):
        """The number of a reading action among those of its body."""
        return sum(action.kind in ("load", "exchange") for action in self.bodies[thread][:place])

    def stores(self, loc):
        """The stores to a location, by thread and then by place: (thread, place, written value)."""
        return [(t, place, action.value) for t, body in enumerate(self.bodies) for place, action in enumerate(body)
                if action.loc == loc and action.kind in ("store", "exchange")]


class Reader:
    """Reads one text from the front, and raises the first refusal that it meets."""

    def __init__(self, text):
        self.text, self.at, self.tokens = text, 0, None

    def line_at(self, at):
        return 1 + self.text.count(b"\n", 0, at)

    def last_line(self):
        return max(1, self.text.count(b"\n") + (not self.text.endswith(b"\n")))

    def first_line(self):
        end = self.text.find(b"\n")
        line = self.text if end < 0 else self.text[:end]
        words = list(re.finditer(rb"[^ \t\r]+", line))
        if not words or words[0].group() != b"X86":
            raise bad(1, 1, words[0].start() if words else 0)
        if len(words) != 2:
            raise bad(2, 1, words[2].start() if len(words) > 2 else len(line))
        faulty = re.search(rb"[^!-~]", words[1].group())
        if faulty:
            raise bad(2, 1, words[1].start() + faulty.start())
        self.at = len(line)
        return words[1].group().decode("ascii")

    def header(self):
        while True:
            while self.text[self.at:self.at + 1] in (b" ", b"\t", b"\r", b"\n"):
                self.at += 1
            rest, here = self.text[self.at:], self.at
            if not rest:
                raise bad(2, self.last_line())
            if rest.startswith(b"{"):
                return
            if rest.startswith(b'"'):
                end = self.text.find(b'"', here + 1) + 1
            elif rest.startswith(b"(*"):
                end = self.text.find(b"*)", here + 2) + 2
                end = 0 if end == 1 else end
            elif rest[:1].isalpha() and rest[0] < 128 and b"=" in rest.split(b"\n", 1)[0]:
                end = here + len(rest.split(b"\n", 1)[0])
            else:
                end = 0
            if end == 0:
                raise bad(2, self.line_at(here), here)
            self.at = end

    def cut(self):
        """The tokens from here on, the last first."""
        tokens, line = [], self.line_at(self.at)
        for found in TOKEN.finditer(self.text, self.at):
            kind, word = found.lastgroup, found.group()
            if kind == "skipped":
                line += word.count(b"\n")
            elif kind in ("open", "other"):  # a comment that does not end, or a byte that begins no token
                tokens.append(Token("other", "(" if kind == "open" else "", line, found.start()))
            else:
                word = word.decode("ascii")
                tokens.append(Token(word if kind == "symbol" else kind, word, line, found.start()))
        self.tokens = tokens[::-1]

    def peek(self):
        return self.tokens[-1] if self.tokens else Token("end", "", self.last_line(), None)

    def next(self):
        token = self.peek()
        if self.tokens:
            self.tokens.pop()
        return token

    def up_to(self, ends, kind):
        """The tokens before the next one of these kinds, and that one."""
        found = []
        while True:
            token = self.next()
            if token.kind == "end":
                raise bad_token(kind, token)
            if token.kind in ends:
                return found, token
            found.append(token)


def is_register(token):
    return token.kind == "name" and token.text.lower() in REGISTERS


def shape_of(tokens):
    """One letter a token: l location, r register, n number, else the token itself; a $ before a number is left out."""
    letters = []
    for token in tokens:
        if token.kind == "number" and letters and letters[-1] == "$":
            letters.pop()
        letters.append("r" if is_register(token) else {"name": "l", "number": "n", "other": "?"}.get(token.kind, token.kind))
    return "".join(letters)


def read_initial(reader):
    reader.next()
    while True:
        item, end = reader.up_to((";", "}"), 3)
        shape = shape_of(item)
        if not re.fullmatch(r"(l=n|\[l\]=n|[lr]l=n|[lr]l|n:r=n|)", shape) or (shape.startswith("n") and item[0].kind == "$"):
            raise bad_token(3, item[0])
        if shape.endswith("=n") and int(item[-1].text) != 0:
            raise bad_token(4, item[0])
        if end.kind == "}":
            return


def cells_of(row):
    cells = [[]]
    for token in row:
        if token.kind == "|":
            cells.append([])
        else:
            cells[-1].append(token)
    return cells


def location_number(test, token):
    if token.text not in test.locations:
        test.locations.append(token.text)
        test.locations_at.append(token.at)
    return test.locations.index(token.text)


def read_cell(test, t, cell):
    if not cell:
        return
    shape = shape_of(cell[1:])
    mnemonic = cell[0].text.upper() if cell[0].kind == "name" else ""
    body, held = test.bodies[t], test.held[t]
    names = [token for token in cell[1:] if token.kind == "name"]
    regs = [token.text.lower() for token in names if is_register(token)]
    locs = [token for token in names if not is_register(token)]
    numbers = [int(token.text) for token in cell if token.kind == "number"]
    if (mnemonic, shape) not in (("MOV", "[l],n"), ("MOV", "[l],r"), ("MOV", "r,[l]"), ("MOV", "r,n"), ("MFENCE", ""), ("XCHG", "[l],r"),
                                 ("XCHG", "r,[l]")) or any(number > MOST for number in numbers):
        raise bad_token(6, cell[0])
    if shape == "r,n":
        held[regs[0]] = ("constant", numbers[0])
        return
    test.actions_at[t].append(cell[0].at)
    if shape == "":
        body.append(Action("fence", None, None, None))
        return
    loc = location_number(test, locs[0])
    if mnemonic == "MOV" and shape == "r,[l]":
        held[regs[0]] = ("read", len(body))
        body.append(Action("load", loc, None, regs[0]))
        return
    kept = ("constant", numbers[0]) if numbers else held[regs[0]]
    if kept[0] == "read":
        raise bad_token(7, cell[0])
    if mnemonic == "MOV":
        body.append(Action("store", loc, kept[1], None))
    else:
        held[regs[0]] = ("read", len(body))
        body.append(Action("exchange", loc, kept[1], regs[0]))


def read_code(reader, test):
    row, end = reader.up_to((";",), 5)
    for number, cell in enumerate(cells_of(row)):
        if len(cell) != 1 or cell[0].kind != "name" or cell[0].text != "P%d" % number:
            raise bad_token(5, end)
        test.threads_at.append(cell[0].at)
        test.bodies.append([])
        test.actions_at.append([])
        test.held.append({reg: ("constant", 0) for reg in REGISTERS})
    while True:
        token = reader.peek()
        if token.kind == "end":
            raise bad_token(8, token)
        if token.kind == "~" or (token.kind == "name" and token.text in ("exists", "forall", "locations")):
            return
        row, end = reader.up_to((";",), 5)
        cells = cells_of(row)
        if len(cells) != len(test.bodies):
            raise bad_token(5, end)
        for t, cell in enumerate(cells):
            read_cell(test, t, cell)


def read_quantifier(reader, test):
    token = reader.peek()
    if token.kind == "name" and token.text == "locations":
        reader.next()
        token = reader.next()
        if token.kind != "[":
            raise bad_token(8, token)
        reader.up_to(("]",), 8)
    token = reader.next()
    if token.kind == "name" and token.text == "forall":
        raise bad_token(9, token)
    if token.kind == "~":
        test.negated = True
        token = reader.next()
    if token.kind != "name" or token.text != "exists":
        raise bad_token(8, token)


def read_number(reader):
    token = reader.next()
    if token.kind != "number" or int(token.text) > MOST:
        raise bad_token(8, token)
    return int(token.text)


def read_atom(reader):
    def expect(right):
        token = reader.next()
        if not right(token):
            raise bad_token(8, token)
        return token

    at = reader.peek().at
    thread = read_number(reader)
    expect(lambda token: token.kind == ":")
    reg = expect(is_register).text.lower()
    expect(lambda token: token.kind == "=")
    if reader.peek().kind == "$":
        reader.next()
    return Atom(thread, reg, read_number(reader), at)


def read_condition(reader, test):
    """`open_after_both` and `has_either` have an entry for each open parenthesis: whether it began after a /\\, and whether a \\/ stands in it."""
    open_after_both, has_either, last_has_either, after_both = [], [], False, False
    while True:
        token = reader.peek()
        if token.kind == "number":
            test.atoms.append(read_atom(reader))
            last_has_either = False
        elif token.kind == "(" and len(has_either) < 16:
            reader.next()
            open_after_both.append(after_both)
            has_either.append(False)
            after_both = False
            continue
        elif token.kind == "[" or (token.kind == "name" and len(reader.tokens) > 1 and reader.tokens[-2].kind == "="):
            raise bad_token(10, token)
        else:
            raise bad_token(8, token)
        while True:
            token = reader.next()
            if token.kind == ")" and has_either:
                open_after_both.pop()
                last_has_either = has_either.pop()
                if has_either and last_has_either:
                    has_either[-1] = True
                continue
            if token.kind == "end" and not has_either:
                test.ends.append(len(test.atoms))
                return
            if token.kind == "/\\" and last_has_either:
                raise bad_token(11, token)
            if token.kind == "\\/":
                if any(open_after_both) or len(test.ends) == 7:
                    raise bad_token(11, token)
                test.ends.append(len(test.atoms))
                if has_either:
                    has_either[-1] = True
            if token.kind in ("/\\", "\\/"):
                after_both = token.kind == "/\\"
                break
            raise bad_token(8 if has_either or token.kind == "end" else 12, token)


def read(text):
    """The test that a text reads as; or the refusal of its form or its shape."""
    if len(text) > MOST_BYTES:
        raise over("input", MOST_BYTES)
    reader = Reader(text)
    test = Test(reader.first_line())
    reader.header()
    reader.cut()
    read_initial(reader)
    read_code(reader, test)
    read_quantifier(reader, test)
    read_condition(reader, test)
    for name, limit, starts in (("threads", 8, test.threads_at), ("locations", 16, test.locations_at),
                                ("instructions", 16, max(test.actions_at, key=len)), ("atoms", 32, [atom.at for atom in test.atoms])):
        if len(starts) > limit:
            raise over(name, limit, starts[limit])
    return test


def kind_number(test, atom, loc, stores):
    """Which refusal an atom has whose register holds a read; 0 for none."""
    writers = {t for t, _, _ in stores}
    named = sum(value == atom.value for _, _, value in stores)
    if atom.value != 0:
        return {0: 3, 1: 0}.get(named, 4)
    if named:
        return 5
    if not stores:
        return 6
    if len(writers) > 1:
        return 7
    return 8 if writers == {atom.thread} else 0


def kinds(test):
    """The kind of each atom; or the refusal of the first that has none."""
    found = []
    for number, atom in enumerate(test.atoms, 1):
        refused, stores, loc, place = 0, [], None, None
        if atom.thread >= len(test.bodies):
            refused = 1
        elif test.held[atom.thread][atom.reg][0] != "read":
            refused = 2
        else:
            place = test.held[atom.thread][atom.reg][1]
            loc = test.bodies[atom.thread][place].loc
            stores = test.stores(loc)
            refused = kind_number(test, atom, loc, stores)
        if refused:
            raise Refused(6, "perple: atom %d: kind %d %s\n" % (number, refused, PROFILE[refused - 1]), atom.at)
        writers = {t for t, _, _ in stores}
        column = test.column(atom.thread, place)
        if atom.value == 0:
            found.append(Kind("fr", atom.thread, column, stores[0][0], len(stores), 1, place, loc))
        else:
            rank = 1 + [value for _, _, value in stores].index(atom.value)
            form = "exact" if len(writers) == 1 and atom.thread not in writers else "rf"
            found.append(Kind(form, atom.thread, column, stores[rank - 1][0], len(stores), rank, place, loc))
    return found


def asked(test):
    """The registers that the condition names, by thread and then in their order; or the refusal of the first atom that asks for no read."""
    for number, atom in enumerate(test.atoms, 1):
        kind = 1 if atom.thread >= len(test.bodies) else 2 if test.held[atom.thread][atom.reg][0] != "read" else 0
        if kind:
            raise Refused(6, "perple: atom %d: kind %d %s\n" % (number, kind, PROFILE[kind - 1]), atom.at)
    return sorted({(atom.thread, atom.reg) for atom in test.atoms}, key=lambda asked: (asked[0], REGISTERS.index(asked[1])))


def satisfies(test, registers, state):
    """Whether a state has all atoms of some conjunction."""
    return any(has(group, registers, state) for group in test.conjunctions())


def has(group, registers, state):
    """Whether a state has all atoms of a conjunction."""
    values = dict(zip(registers, state))
    return all(values[atom.thread, atom.reg] == atom.value for atom in group)
