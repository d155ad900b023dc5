"""Named tests of the literature with their published answers on x86-TSO, as far as the format takes them.

iwp2.*: Intel's white paper on memory ordering (2007). amd*: the tests of AMD's manual, n*: those of the x86-TSO papers (Owens, Sarkar,
Sewell, TPHOLs 2009; Sewell and others, CACM 2010). The others have the names of the diy tool (Alglave, Maranget, Tautschnig, TOPLAS 2014).
Where a final value of memory is asked for, a thread more reads the location: its two reads tell the order of the writes. Such a test's name
ends with `+obs`. They were written down from memory, with no paper at hand: n1, n3, n4 and n8 are left out for that reason."""
import collections

Named = collections.namedtuple("Named", "name text is_allowed")

# Name, whether the outcome is allowed, the threads (instructions with `;` between them), the condition.
TABLE = (
    ("iwp2.1", False, ("MOV [x],$1; MOV [y],$1", "MOV EAX,[y]; MOV EBX,[x]"), "1:EAX=1 /\\ 1:EBX=0"),
    ("iwp2.2", False, ("MOV EAX,[x]; MOV [y],$1", "MOV EAX,[y]; MOV [x],$1"), "0:EAX=1 /\\ 1:EAX=1"),
    ("iwp2.3.a", True, ("MOV [x],$1; MOV EAX,[y]", "MOV [y],$1; MOV EAX,[x]"), "0:EAX=0 /\\ 1:EAX=0"),
    ("iwp2.3.b", False, ("MOV [x],$1; MOV EAX,[x]", "MOV [y],$1; MOV EAX,[y]"), "0:EAX=0 \\/ 1:EAX=0"),
    ("iwp2.4", True, ("MOV [x],$1; MOV EAX,[x]; MOV EBX,[y]", "MOV [y],$1; MOV EAX,[y]; MOV EBX,[x]"),
     "0:EAX=1 /\\ 0:EBX=0 /\\ 1:EAX=1 /\\ 1:EBX=0"),
    ("iwp2.5", False, ("MOV [x],$1", "MOV EAX,[x]; MOV [y],$1", "MOV EAX,[y]; MOV EBX,[x]"), "1:EAX=1 /\\ 2:EAX=1 /\\ 2:EBX=0"),
    ("iwp2.6", False, ("MOV [x],$1", "MOV [x],$2", "MOV EAX,[x]; MOV EBX,[x]", "MOV EAX,[x]; MOV EBX,[x]"),
     "2:EAX=1 /\\ 2:EBX=2 /\\ 3:EAX=2 /\\ 3:EBX=1"),
    ("iwp2.7", False, ("MOV EAX,$1; XCHG [x],EAX", "MOV EAX,$1; XCHG [y],EAX", "MOV EAX,[x]; MOV EBX,[y]", "MOV EAX,[y]; MOV EBX,[x]"),
     "2:EAX=1 /\\ 2:EBX=0 /\\ 3:EAX=1 /\\ 3:EBX=0"),
    ("iwp2.8.a", False, ("MOV EAX,$1; XCHG [x],EAX; MOV EBX,[y]", "MOV EAX,$1; XCHG [y],EAX; MOV EBX,[x]"), "0:EBX=0 /\\ 1:EBX=0"),
    ("iwp2.8.b", False, ("MOV EAX,$1; XCHG [x],EAX; MOV [y],$1", "MOV EAX,[y]; MOV EBX,[x]"), "1:EAX=1 /\\ 1:EBX=0"),
    ("amd3", True, ("MOV [x],$1; MOV [x],$2; MOV EAX,[y]", "MOV [y],$1; MOV [y],$2; MOV EAX,[x]"), "0:EAX=1 /\\ 1:EAX=1"),
    ("amd5", False, ("MOV [x],$1; MFENCE; MOV EAX,[y]", "MOV [y],$1; MFENCE; MOV EAX,[x]"), "0:EAX=0 /\\ 1:EAX=0"),
    ("amd6", False, ("MOV [x],$1", "MOV [y],$1", "MOV EAX,[x]; MOV EBX,[y]", "MOV EAX,[y]; MOV EBX,[x]"),
     "2:EAX=1 /\\ 2:EBX=0 /\\ 3:EAX=1 /\\ 3:EBX=0"),
    ("amd10", False, ("MOV [x],$1; MFENCE; MOV EAX,[x]; MOV EBX,[y]", "MOV [y],$1; MFENCE; MOV EAX,[y]; MOV EBX,[x]"),
     "0:EAX=1 /\\ 0:EBX=0 /\\ 1:EAX=1 /\\ 1:EBX=0"),
    ("n2", False, ("MOV [x],$1; MOV [y],$1", "MOV [y],$2; MOV [z],$1", "MOV EAX,[z]; MOV EBX,[x]", "MOV EAX,[y]; MOV EBX,[y]"),
     "2:EAX=1 /\\ 2:EBX=0 /\\ 3:EAX=1 /\\ 3:EBX=2"),
    ("n4b", False, ("MOV EAX,[x]; MOV [x],$1", "MOV EAX,[x]; MOV [x],$2"), "0:EAX=2 /\\ 1:EAX=1"),
    ("n5", False, ("MOV [x],$1; MOV EAX,[x]", "MOV [x],$2; MOV EAX,[x]"), "0:EAX=2 /\\ 1:EAX=1"),
    ("n6+obs", True, ("MOV [x],$1; MOV EAX,[x]; MOV EBX,[y]", "MOV [y],$2; MOV [x],$2", "MOV EAX,[x]; MOV EBX,[x]"),
     "0:EAX=1 /\\ 0:EBX=0 /\\ 2:EAX=2 /\\ 2:EBX=1"),
    ("n7", True, ("MOV [x],$1; MOV EAX,[x]; MOV EBX,[y]", "MOV [y],$1", "MOV EAX,[y]; MOV EBX,[x]"),
     "0:EAX=1 /\\ 0:EBX=0 /\\ 2:EAX=1 /\\ 2:EBX=0"),
    ("R+obs", True, ("MOV [x],$1; MOV [y],$1", "MOV [y],$2; MOV EAX,[x]", "MOV EAX,[y]; MOV EBX,[y]"), "1:EAX=0 /\\ 2:EAX=1 /\\ 2:EBX=2"),
    ("R+po+mfence+obs", False, ("MOV [x],$1; MOV [y],$1", "MOV [y],$2; MFENCE; MOV EAX,[x]", "MOV EAX,[y]; MOV EBX,[y]"),
     "1:EAX=0 /\\ 2:EAX=1 /\\ 2:EBX=2"),
    ("S+obs", False, ("MOV [x],$2; MOV [y],$1", "MOV EAX,[y]; MOV [x],$1", "MOV EAX,[x]; MOV EBX,[x]"), "1:EAX=1 /\\ 2:EAX=1 /\\ 2:EBX=2"),
    ("2+2W+obs", False, ("MOV [x],$1; MOV [y],$2", "MOV [y],$1; MOV [x],$2", "MOV EAX,[x]; MOV EBX,[x]", "MOV EAX,[y]; MOV EBX,[y]"),
     "2:EAX=2 /\\ 2:EBX=1 /\\ 3:EAX=2 /\\ 3:EBX=1"),
    ("CoRR", False, ("MOV [x],$1", "MOV EAX,[x]; MOV EBX,[x]"), "1:EAX=1 /\\ 1:EBX=0"),
    ("CoRR+two-writers", False, ("MOV [x],$1", "MOV [x],$2", "MOV EAX,[x]; MOV EBX,[x]; MOV ECX,[x]"), "2:EAX=1 /\\ 2:EBX=2 /\\ 2:ECX=1"),
    ("CoRW1", False, ("MOV EAX,[x]; MOV [x],$1",), "0:EAX=1"),
    ("CoRW2+obs", False, ("MOV EAX,[x]; MOV [x],$1", "MOV [x],$2", "MOV EAX,[x]; MOV EBX,[x]"), "0:EAX=2 /\\ 2:EAX=1 /\\ 2:EBX=2"),
    ("CoWR+obs", False, ("MOV [x],$1; MOV EAX,[x]", "MOV [x],$2", "MOV EAX,[x]; MOV EBX,[x]"), "0:EAX=2 /\\ 2:EAX=2 /\\ 2:EBX=1"),
    ("CoWW+obs", False, ("MOV [x],$1; MOV [x],$2", "MOV EAX,[x]; MOV EBX,[x]"), "1:EAX=2 /\\ 1:EBX=1"),
    ("CoWW+two-writers", False, ("MOV [x],$1; MOV [x],$2", "MOV [x],$3", "MOV EAX,[x]; MOV EBX,[x]"), "2:EAX=2 /\\ 2:EBX=1"),
    ("SB", True, ("MOV [x],$1; MOV EAX,[y]", "MOV [y],$1; MOV EAX,[x]"), "0:EAX=0 /\\ 1:EAX=0"),
    ("MP", False, ("MOV [x],$1; MOV [y],$1", "MOV EAX,[y]; MOV EBX,[x]"), "1:EAX=1 /\\ 1:EBX=0"),
    ("LB", False, ("MOV EAX,[x]; MOV [y],$1", "MOV EAX,[y]; MOV [x],$1"), "0:EAX=1 /\\ 1:EAX=1"),
    ("WRC", False, ("MOV [x],$1", "MOV EAX,[x]; MOV [y],$1", "MOV EAX,[y]; MOV EBX,[x]"), "1:EAX=1 /\\ 2:EAX=1 /\\ 2:EBX=0"),
    ("ISA2", False, ("MOV [x],$1; MOV [y],$1", "MOV EAX,[y]; MOV [z],$1", "MOV EAX,[z]; MOV EBX,[x]"), "1:EAX=1 /\\ 2:EAX=1 /\\ 2:EBX=0"),
    ("RWC", True, ("MOV [x],$1", "MOV EAX,[x]; MOV EBX,[y]", "MOV [y],$1; MOV EAX,[x]"), "1:EAX=1 /\\ 1:EBX=0 /\\ 2:EAX=0"),
    ("RWC+po+mfence", False, ("MOV [x],$1", "MOV EAX,[x]; MOV EBX,[y]", "MOV [y],$1; MFENCE; MOV EAX,[x]"), "1:EAX=1 /\\ 1:EBX=0 /\\ 2:EAX=0"),
    ("W+RWC", True, ("MOV [x],$1; MOV [y],$1", "MOV EAX,[y]; MOV EBX,[z]", "MOV [z],$1; MOV EAX,[x]"), "1:EAX=1 /\\ 1:EBX=0 /\\ 2:EAX=0"),
    ("W+RWC+po+po+mfence", False, ("MOV [x],$1; MOV [y],$1", "MOV EAX,[y]; MOV EBX,[z]", "MOV [z],$1; MFENCE; MOV EAX,[x]"),
     "1:EAX=1 /\\ 1:EBX=0 /\\ 2:EAX=0"),
    ("IRIW", False, ("MOV [x],$1", "MOV EAX,[x]; MOV EBX,[y]", "MOV [y],$1", "MOV EAX,[y]; MOV EBX,[x]"),
     "1:EAX=1 /\\ 1:EBX=0 /\\ 3:EAX=1 /\\ 3:EBX=0"),
)


# Those that ask for a final value of memory, which the format refuses: each has its observer above. Name, threads, condition.
IN_MEMORY = (
    ("n6", ("MOV [x],$1; MOV EAX,[x]; MOV EBX,[y]", "MOV [y],$2; MOV [x],$2"), "0:EAX=1 /\\ 0:EBX=0 /\\ x=1"),
    ("R", ("MOV [x],$1; MOV [y],$1", "MOV [y],$2; MOV EAX,[x]"), "1:EAX=0 /\\ y=2"),
    ("S", ("MOV [x],$2; MOV [y],$1", "MOV EAX,[y]; MOV [x],$1"), "1:EAX=1 /\\ x=2"),
    ("2+2W", ("MOV [x],$1; MOV [y],$2", "MOV [y],$1; MOV [x],$2"), "x=1 /\\ y=1"),
    ("CoRW2", ("MOV EAX,[x]; MOV [x],$1", "MOV [x],$2"), "0:EAX=2 /\\ x=2"),
    ("CoWR", ("MOV [x],$1; MOV EAX,[x]", "MOV [x],$2"), "0:EAX=2 /\\ x=1"),
    ("CoWW", ("MOV [x],$1; MOV [x],$2",), "x=1"),
)


def text_of(name, threads, condition):
    """The litmus text of threads, each with its instructions in one string."""
    bodies = [[instruction for instruction in thread.split("; ") if instruction] for thread in threads]
    rows = [["P%d" % number for number in range(len(bodies))]]
    for i in range(max(map(len, bodies))):
        rows.append([body[i] if i < len(body) else "" for body in bodies])
    widths = [max(len(row[column]) for row in rows) for column in range(len(bodies))]
    lines = [" %s ;" % " | ".join(cell.ljust(width) for cell, width in zip(row, widths)) for row in rows]
    return ("X86 %s\n{ }\n%s\n%s\n" % (name, "\n".join(lines), condition)).encode()


def named():
    return [Named(name, text_of(name, threads, "exists (%s)" % condition), is_allowed) for name, is_allowed, threads, condition in TABLE]


def in_memory():
    """The texts that are refused, by name."""
    return {name: text_of(name, threads, "exists (%s)" % condition) for name, threads, condition in IN_MEMORY}
