"""The words of the two programs, as docs/COMMANDS.md has them: which word of a line is wrong, and what would be right."""
import collections
import difflib
import functools
import re

import advice
import programs

GREATEST = 2 ** 64 - 1
NO_COMMAND = "these are the commands: %s"

# What an option takes: a word, or a number within limits.
Either = collections.namedtuple("Either", "word limits")


@functools.cache
def commands_of(program):
    return Commands(program)


class Commands:
    """The commands of a program, each with the names of its values; and the options of those that take some."""

    def __init__(self, program):
        text = advice.page("COMMANDS.md")
        about = advice.part(text, "`%s`" % program) or advice.part(text, "`./%s`" % program)
        self.values, self.own = {}, {}
        for cell, means in advice.rows(about.split("\n\n")[0]):
            command, *values = cell.strip("`").split()
            self.values[command] = values
            self.own[command] = re.findall(r"`--(\w+) \w+`", means)
        taking = re.search(r"((?:`\w+`(?:, | and )?)+) take these options", about)
        self.taking = re.findall(r"`(\w+)`", taking[1]) if taking else []
        self.iterations = limits_in(re.search(r"N is [^.]*", text)[0])
        self.options = dict(option_of(row) for row in advice.rows(about) if row[0].startswith("`--"))
        self.borrowed = borrowed_in(about)

    def options_for(self, command):
        """The names of a command's options, each with its choices or its limits."""
        shared = self.options if command in self.taking else {}
        return {**shared, **self.borrowed.get(command, {}), **{name: (0, GREATEST) for name in self.own[command]}}


def borrowed_in(about):
    """For each command that takes options of `perple`: these; and `--order` with a word, where it may have one."""
    borrowed = {}
    for command, said in re.findall(r"`(\w+)` takes N and these options of `perple`[^:]*:([^.]*)", about):
        lent = commands_of("perple").options_for("replay")
        borrowed[command] = {name: lent[name] for name in re.findall(r"`--(\w+) ", said)}
        word = re.search(r"`%s N --order ([a-z]+)`" % command, about)
        if word:
            borrowed[command]["order"] = Either(word[1], (0, GREATEST))
    return borrowed


def limits_in(text):
    """The least and the greatest number that a text names; those of 64 bits where it names none."""
    found = re.search(r"([0-9][0-9,]*) to ([0-9][0-9,]*)", text)
    return tuple(int(number.replace(",", "")) for number in found.groups()) if found else (0, GREATEST)


def option_of(row):
    """The name of an option, and its choices or its limits."""
    first, *others = re.findall(r"`([^`]*)`", row[0])
    name, value = first[2:].split()
    return name, ([value] + others if others else limits_in(row[1]))


def is_number(word, limits):
    return re.fullmatch(r"[0-9]{1,20}", word, re.A) is not None and limits[0] <= int(word) <= limits[1]


def between(limits):
    if limits[1] == GREATEST:
        return "any number from 0 to %d" % GREATEST
    return "a number from %s to %s" % tuple(format(limit, ",") for limit in limits)


def close_to(word, names):
    """The name that is meant, as a guess; nothing where none is near."""
    found = difflib.get_close_matches(word, names, 1)
    return "; perhaps `%s` is meant" % found[0] if found else ""


def program_of(command):
    """The program that has a command; `perple` where none has."""
    return next((program for program in programs.CRATES if command in commands_of(program).values), "perple")


class Line:
    """The words of a command, read from left to right. `fault` is the number of the wrong word and what would be right, once one is met."""

    def __init__(self, known, words):
        self.words, self.command, self.values, self.given = words, words[0], known.values[words[0]], {}
        self.options = known.options_for(self.command)
        self.limits = {"N": known.iterations}
        self.known = known

    def option(self, at):
        """Takes an option; the number of the word behind it, or the fault."""
        name, has_value, value = self.words[at][2:].partition("=")
        if name == "help":
            return None, (at, "no word asks for help: COMMANDS.md and the page of the manual, perple(1), have all words")
        if name not in self.options:
            return None, (at, self.no_option(name))
        if name in self.given:
            return None, (at, "`--%s` is given twice" % name)
        behind = at + 1
        if not has_value:
            if behind == len(self.words) or self.words[behind].startswith("-"):
                return None, (min(behind, len(self.words)), "`--%s` wants %s" % (name, self.wanted(name)))
            value, behind = self.words[behind], behind + 1
        self.given[name] = value
        if not self.takes(name, value):
            return None, (behind - 1, "`--%s` wants %s" % (name, self.wanted(name)))
        return behind, None

    def no_option(self, name):
        if not self.options:
            return "`%s` takes no options" % self.command
        holders = [command for command in self.known.values if name in self.known.options_for(command)]
        if holders:
            return "`--%s` is an option of `%s` alone" % (name, "` and `".join(holders))
        listed = ", ".join("`--%s`" % option for option in sorted(self.options))
        return "the options of `%s` are %s%s" % (self.command, listed, close_to("--" + name, ["--" + option for option in self.options]))

    def takes(self, name, value):
        choices = self.options[name]
        if isinstance(choices, Either):
            return value == choices.word or is_number(value, choices.limits)
        return value in choices if isinstance(choices, list) else is_number(value, choices)

    def wanted(self, name):
        choices = self.options[name]
        if isinstance(choices, Either):
            return "`%s`, or %s" % (choices.word, between(choices.limits))
        return "one of `%s`" % "`, `".join(choices) if isinstance(choices, list) else between(choices)

    def value(self, at, left):
        """Takes the value that is the next of those that are left; the fault, if there is one."""
        if not left:
            return at, "this is a word too many: `%s` takes %s" % (self.command, " and ".join(self.values) or "no further word")
        name = left.pop(0)
        limits = self.limits.get(name, (0, GREATEST))
        return None if is_number(self.words[at], limits) else (at, "%s is %s" % (name, between(limits)))

    def fault(self):
        """The number of the first wrong word and what would be right; or None."""
        at, values = 1, list(self.values)
        while at < len(self.words):
            word = self.words[at]
            if re.match("--.", word):
                at, fault = self.option(at)
            elif word.startswith("-"):
                fault = at, "options begin with two hyphens and have a name; a number has no hyphen"
            else:
                at, fault = at + 1, self.value(at, values)
            if fault:
                return fault
        if values:
            limits = self.limits.get(values[0], (0, GREATEST))
            return at, "here %s is missing: %s" % (values[0], between(limits))
        return None


def fault_in(program, words):
    """The number of the first wrong word and what would be right; or None, where these rules find none."""
    known = commands_of(program)
    if not words:
        return 0, "here a command is missing; " + NO_COMMAND % ", ".join(known.values)
    if words[0] in known.values:
        return Line(known, words).fault()
    other = next(name for name in programs.CRATES if name != program)
    if words[0] in commands_of(other).values:
        return 0, "`%s` is a command of `%s`" % (words[0], other)
    if words[0] in ("--help", "-h", "help", "--version", "-V"):
        return 0, "no word asks for help: COMMANDS.md and the page of the manual, %s(1), have all words" % program
    every = [command for name in programs.CRATES for command in commands_of(name).values]
    return 0, "no such command; those of `perple` and `perple_tool` are %s%s" % (", ".join(every), close_to(words[0], every))


def wrong_words(program, words):
    """The words with a mark under the wrong one, and what would be right."""
    fault = fault_in(program, words)
    line = [program] + [advice.printed(word.encode("utf-8", "surrogateescape")) for word in words]
    if fault is None:
        return ["    " + " ".join(line), "COMMANDS.md has the words of each command; this program may be older than the page."]
    at, right = fault
    before = " ".join(line[:at + 1]) + " "
    return ["    " + " ".join(line), "    " + " " * len(before) + "^" * max(1, len(line[at + 1]) if at + 1 < len(line) else 1), right[0].upper() + right[1:] + "."]
