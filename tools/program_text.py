"""A test as it is written: its comment, the rows of its code, the instruction of each action, and its condition."""
import itertools
import re

import litmus

MOST_ACTIONS = 16  # of one thread


def without_comments(text):
    return re.sub(r"\(\*.*?\*\)", " ", text, flags=re.S)


def is_store(cell):
    """Whether a cell is a store; an exchange is none."""
    return re.match(r"mov\s*\[", cell, re.I) is not None


def is_action(cell):
    """Whether a cell is a store, a load, a fence or an exchange; a constant is none."""
    return "[" in cell or cell.upper().startswith("MFENCE")


class Text:
    """A litmus text, read as data (`test`) and kept as it is written."""

    def __init__(self, raw):
        self.raw, self.test = raw, litmus.read(raw)
        reader = litmus.Reader(raw)
        reader.first_line()
        begin = reader.at
        reader.header()
        head, body = raw[begin:reader.at].decode("utf-8", "replace"), raw[reader.at:].decode("utf-8", "replace")
        self.comment = " ".join(" ".join(re.findall(r"\(\*(.*?)\*\)", re.sub(r'"[^"]*"', " ", head), re.S)).split())
        code = without_comments(body)
        code = code[code.index("}") + 1:]
        self.rows = self.cells(code)
        self.instructions = [[row[thread] for row in self.rows if is_action(row[thread])] for thread in range(len(self.test.bodies))]
        self.condition = " ".join(re.search(r"(~\s*)?\bexists\b(?![;\]]).*", code, re.S).group().split())

    def cells(self, code):
        """The rows of the code, a cell for each thread; the row with the threads' names is left out."""
        rows = []
        for row in code.split(";")[1:]:
            row = [" ".join(cell.split()) for cell in row.split("|")]
            if re.match(r"(locations|exists)\b|~", row[0]):
                break
            rows.append(row)
        return rows

    def row_of(self, thread, place):
        """In which row an action stands."""
        return [number for number, row in enumerate(self.rows) if is_action(row[thread])][place]

    def conditioned(self, groups):
        """The text with another condition: atoms joined into conjunctions, and these by \\/."""
        front = self.raw[:self.condition_at()].decode("utf-8", "replace")
        asked = [" /\\ ".join("%d:%s=%d" % (thread, reg.upper(), value) for thread, reg, value, *_ in group) for group in groups]
        return (front + "exists (%s)\n" % " \\/ ".join(asked)).encode()

    def fenced(self):
        """The text with a fence behind each store; None where that has more actions than a thread may have."""
        columns = []
        for thread in range(len(self.test.bodies)):
            cells = [row[thread] for row in self.rows if row[thread]]
            columns.append([line for cell in cells for line in [cell] + ["MFENCE"] * is_store(cell)])
            if sum(map(is_action, columns[-1])) > MOST_ACTIONS:
                return None
        head = " | ".join("P%d" % thread for thread in range(len(columns)))
        rows = [" | ".join(row) for row in itertools.zip_longest(*columns, fillvalue="")]
        return ("X86 %s\n{ }\n%s%s\n" % (self.test.name, "".join(row + " ;\n" for row in [head] + rows), self.condition)).encode()

    def condition_at(self):
        """Where the condition begins; each comment is as long as before, so that places stay."""
        blank = re.sub(rb"\(\*.*?\*\)", lambda found: b" " * len(found.group()), self.raw, flags=re.S)
        return list(re.finditer(rb"(~\s*)?\bexists\b", blank))[-1].start()


def read(path):
    """The text of a file, or the line that says why there is none."""
    with open(path, "rb") as file:
        return Text(file.read())
