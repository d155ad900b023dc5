"""The outcomes of a test, as `perple_tool outcomes` lists them."""
import collections
import re

import programs

# The registers that the condition names, (thread, name in small letters); every list of their final values; and the word of the line
# Observation.
Listed = collections.namedtuple("Listed", "registers states word")
STATE = re.compile(r"(?:(\d+):(\w+)=(\d+);)")


class NotListed(Exception):
    """The line with which the program refuses, or says that a limit is met."""


def outcomes(raw):
    """The outcomes of a litmus text; or why they are not listed."""
    status, out, err = programs.run("perple_tool", ["outcomes"], raw)
    if status != 0:
        raise NotListed(err or "status %d" % status)
    lines = out.splitlines()
    rows = [STATE.findall(line) for line in lines[2:-1]]
    registers = [(int(thread), reg.lower()) for thread, reg, _ in rows[0]]
    return Listed(registers, [tuple(int(value) for _, _, value in row) for row in rows], lines[-1].split()[-3])
