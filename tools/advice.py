"""What the pages of docs/ say, by heading and by the rows of their tables."""
import functools
import re

import programs


@functools.cache
def page(name):
    """A page of docs/, its links as their words alone."""
    found = programs.page(name)
    if found is None:
        raise programs.Missing("%s is not here" % name)
    with open(found, encoding="utf-8") as file:
        return re.sub(r"\[([^\]]*)\]\([^)\s]+\)", r"\1", file.read())


def part(text, heading):
    """What stands under a heading that begins with these words, up to the next one of its rank or above; None where there is none."""
    found = re.search(r"^(#+) %s(?!\w)[^\n]*\n" % re.escape(heading), text, re.M)
    if found is None:
        return None
    end = re.search(r"^#{1,%d} " % len(found[1]), text[found.end():], re.M)
    return text[found.end():found.end() + end.start() if end else len(text)].strip()


def cells(row):
    return [cell.strip().replace("\\|", "|") for cell in re.split(r"(?<!\\)\|", row.strip())[1:-1]]


def rows(text):
    """The rows of all tables of a text, without their heads."""
    lines = [line for line in text.split("\n") if line.startswith("|")]
    return [cells(line) for at, line in enumerate(lines) if not line.startswith("| ---") and not lines[at + 1:at + 2] == ["| --- | --- |"]]


def row_of(text, first, column=0):
    """The first row that has this, or begins with it, in a column; None where there is none."""
    return next((row for row in rows(text) if row[column] == first or row[column].startswith(first + " ")), None)


def paragraphs(text):
    """The paragraphs of a text, without examples and tables: before its first example, and after its last."""
    before, *others = re.split(r"```.*?```", text, flags=re.S)
    return [[one for one in piece.split("\n\n") if one.strip() and not one.startswith("|")]
            for piece in (before, others[-1] if others else "")]


def printed(data):
    """Bytes as they are shown: what has no shape of its own is `?`."""
    return "".join(char if char.isprintable() or char == "\t" else "?" for char in data.decode("utf-8", "replace"))
