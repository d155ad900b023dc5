#!/usr/bin/env python3
"""The documents as an installed package has them, and its man pages: `tools/pages.py NAME` writes one.

    perple, perple_tool      from docs/COMMANDS.md
    perple-litmus            from docs/FORMAT.md
    perple-draw and so on    from the text at the head of the tool

No sentence stands here that those pages have: so neither says another thing than the other."""
import ast
import os
import re
import sys
import textwrap

TOP = os.path.dirname(os.path.dirname(os.path.realpath(__file__)))
TOOLS = ["draw", "campaign", "suite", "explain", "page", "pages"]
ABOUT = {
    "perple": "runs x86-TSO litmus tests as perpetual loops",
    "perple_tool": "judges and finds runs of x86-TSO litmus tests",
    "perple-litmus": "the litmus format of perple, and its refusals",
}
WIDTH = 78


def read(*path):
    with open(os.path.join(TOP, *path)) as file:
        return file.read()


def tools():
    """The tools that a package has."""
    return [tool for tool in TOOLS if os.path.exists(os.path.join(TOP, "tools", tool))]


def installed(text):
    """A text with the names that commands have where they are installed."""
    text = re.sub(r"(?<![\w/])\./(perple(?:_tool)?)\b", r"\1", text)
    return re.sub(r"(?<![\w/])tools/(%s)\b" % "|".join(tools()), r"perple-\1", text)


# ---- from Markdown to man


def escaped(text):
    """Text whose every character stands for itself."""
    text = text.replace("\\", "\\e").replace("-", "\\-")
    for letter, name in [("~", "\\(ti"), ("^", "\\(ha"), ("`", "\\(ga"), ("'", "\\(aq"), ('"', "\\(dq")]:
        text = text.replace(letter, name)
    return text


def linked(found):
    """A link: its words, and the page of the manual where there is one."""
    words, target = found.groups()
    page = os.path.basename(target.partition("#")[0])
    return {"FORMAT.md": "`perple-litmus`(5)", "COMMANDS.md": "`perple`(1)"}.get(page, words)


def inline(text):
    """Words of a paragraph: code is bold, a stressed word slanted."""
    text = re.sub(r"\[([^\]]*)\]\(([^)\s]+)\)", linked, text)
    parts = []
    for part in re.split(r"(`[^`]+`|\*[^*\s][^*]*\*)", text):
        if part.startswith("`") and len(part) > 1:
            parts.append("\\fB%s\\fR" % escaped(part[1:-1]))
        elif part.startswith("*") and len(part) > 1:
            parts.append("\\fI%s\\fR" % escaped(part[1:-1]))
        else:
            parts.append(escaped(part))
    return "".join(parts)


def filled(text):
    """Lines of a paragraph; none of them begins as a request would."""
    lines = textwrap.wrap(inline(text), WIDTH, break_long_words=False, break_on_hyphens=False)
    return ["\\&" + line if line[:1] in (".", "'") else line for line in lines]


def verbatim(lines):
    return [".PP", ".RS 4", ".EX"] + ["\\&" + escaped(line) if line[:1] in (".", "'") else escaped(line) for line in lines] \
        + [".EE", ".RE"]


def cells(line):
    return [cell.strip().replace("\\|", "|") for cell in re.split(r"(?<!\\)\|", line.strip())[1:-1]]


def table(lines):
    """A table: columns where it is one of numbers, else an entry for each row."""
    head, rows = cells(lines[0]), [cells(line) for line in lines[2:]]
    if len(head) > 4:
        whole = [head] + rows
        widths = [max(len(row[at]) for row in whole) for at in range(len(head))]
        return verbatim(["  ".join(cell.rjust(width) for cell, width in zip(row, widths)) for row in whole])
    out = []
    for first, *others in rows:
        out += [".TP"] + filled(first or head[0]) + filled(others[0])
        for name, cell in zip(head[2:], others[1:]):
            if cell:
                out += [".br"] + filled("%s: %s" % (name, cell))
    return out


def block(lines):
    """A block of lines that no empty line parts."""
    if lines[0].startswith("|"):
        return table(lines)
    if lines[0].startswith("- "):
        return [line for item in re.split(r"^- ", "\n".join(lines), flags=re.M)[1:]
                for line in [".IP \\(bu 2"] + filled(" ".join(item.split()))]
    return [".PP"] + filled(" ".join(lines))


def roff(markdown):
    """The body of a page."""
    out, pending, lines = [], [], iter(markdown.split("\n") + [""])
    for line in lines:
        heading = re.match(r"(#+) (.*)", line)
        if line.strip() and not heading and not line.startswith("```") and not line.startswith("!["):
            pending.append(line)
            continue
        if pending:
            out += block(pending)
            pending = []
        if heading:
            # a heading has no code: its words are those of the page
            out += ["%s %s" % (".SS" if len(heading[1]) > 2 else ".SH", escaped(heading[2].replace("`", "")))]
        elif line.startswith("```"):
            out += verbatim(list(iter(lambda: next(lines), "```")))
    return [line for at, line in enumerate(out) if not (line == ".PP" and out[at - 1].startswith((".SH", ".SS")))]


# ---- the pages


def part(text, title):
    """What stands under the heading that begins with these words, up to the next one of its rank."""
    found = re.search(r"^(#+) %s[^\n]*\n(.*?)(?=^#{1,2} |\Z)" % re.escape(title), text, re.S | re.M)
    return found[2].strip()


def synopsis(text, name):
    """A line for each command of the first table."""
    lines = re.findall(r"^\| (`[^|]*`) \|", text.split("\n\n")[0], re.M)
    takes = "[\\fIOPTIONS\\fR] "
    out = []
    for line in lines:
        command, *rest = line.strip("`").split()
        out.append("\\fB%s %s\\fR %s%s%s" % (name, command, "".join("\\fI%s\\fR " % word for word in rest),
                                             takes if command in ("run", "replay", "count") else "",
                                             "" if command == "demo" else "< \\fITEST\\fR"))
    return [line for entry in out for line in [entry.rstrip(), ".br"]][:-1]


def page(name, section, date, about, parts, see):
    head = ['.TH %s %d %s "perple %s" "%s"' % (name.upper(), section, date, read("VERSION").strip(),
                                               "File formats" if section == 5 else "User commands"),
            ".SH NAME", "%s \\- %s" % (name, escaped(about))]
    if len(head[2]) > 80:
        head[2] = head[2][:head[2].rindex(" ", 0, 80)] + "\n" + head[2][head[2].rindex(" ", 0, 80) + 1:]
    body = [line for title, lines in parts for line in [".SH " + title] + (lines[1:] if lines[:1] == [".PP"] else lines)]
    others = [".SH SEE ALSO"] + [".BR %s (%d)%s" % (other, number, "," if at < len(see) - 1 else "")
                                 for at, (other, number) in enumerate(see)]
    return "\n".join(head + body + others) + "\n"


def named(others):
    return [(name, 5 if name == "perple-litmus" else 1) for name in others]


def program_page(name, date):
    commands = installed(read("docs", "COMMANDS.md"))
    about = part(commands, "`%s`" % name)
    intro = re.search(r"^# [^\n]*\n\n(.*?)\n\n", commands, re.S)[1]
    parts = [("SYNOPSIS", synopsis(about, name)), ("DESCRIPTION", roff(intro + "\n\n" + about))]
    parts += [("EXIT STATUS", roff(part(commands, "Statuses")))]
    see = [other for other in ("perple", "perple_tool", "perple-litmus") if other != name] + ["perple-" + tool for tool in tools()]
    return page(name, 1, date, ABOUT[name], parts, named(see))


def format_page(date):
    form = installed(read("docs", "FORMAT.md"))
    intro, _, rest = form.split("\n", 1)[1].strip().partition("\n## ")
    parts = [("DESCRIPTION", roff(intro) + roff("## " + rest))]
    return page("perple-litmus", 5, date, ABOUT["perple-litmus"], parts, named(["perple", "perple_tool"]))


def tool_page(tool, date):
    """A page from the head of a tool: its first sentence names it, and indented lines are shown as they are."""
    text = installed(ast.get_docstring(ast.parse(read("tools", tool))))
    about, *blocks = text.split("\n\n")
    first, _, rest = " ".join(about.split()).partition(". ")
    synopsis_lines, lines = [], []
    for one in ([rest] if rest else []) + blocks:
        if one.startswith("    "):
            shown = verbatim(textwrap.dedent(one).split("\n"))
            synopsis_lines, lines = (synopsis_lines, lines + shown) if synopsis_lines else (shown[1:], lines)
        else:
            lines += [".PP"] + filled(" ".join(one.split()))
    if tool == "campaign":
        lines += roff(part(installed(read("docs", "COMMANDS.md")), "Many runs"))
    name = "perple-" + tool
    parts = [("SYNOPSIS", synopsis_lines or [escaped(name)]), ("DESCRIPTION", lines)]
    return page(name, 1, date, first[0].lower() + first[1:].rstrip(".:"), parts, named(["perple", "perple_tool"]))


def manual(name, date):
    """A man page by its name."""
    if name in ("perple", "perple_tool"):
        return program_page(name, date)
    return format_page(date) if name == "perple-litmus" else tool_page(name[len("perple-"):], date)


def names():
    """The man pages, each with its section."""
    return named(["perple", "perple_tool", "perple-litmus"] + ["perple-" + tool for tool in tools()])


if __name__ == "__main__":
    if len(sys.argv) != 2 or sys.argv[1] not in dict(names()):
        sys.exit(__doc__)
    sys.stdout.write(manual(sys.argv[1], "2026-12-02"))
