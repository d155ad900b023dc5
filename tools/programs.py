"""The two programs, as the tools start them: those of a checkout, which the first use builds, or those of an installed package, which
stand in its bin folder or on the PATH. And the words of replays that are tried when an outcome is looked for."""
import os
import shutil
import subprocess

TOP = os.path.dirname(os.path.dirname(os.path.realpath(__file__)))
CRATES = {"perple": "perple_main", "perple_tool": "tool_main"}
IS_CHECKOUT = os.path.exists(os.path.join(TOP, "crates.txt"))
USAGE = 2
started = set()


class Missing(Exception):
    """Why a program cannot be started."""


def page(name):
    """The file of a page of docs/."""
    folders = [os.path.join(TOP, "docs"), os.path.join(TOP, "..", "doc", "perple", "docs")]
    return next((os.path.join(folder, name) for folder in folders if os.path.exists(os.path.join(folder, name))), None)


def place_of(name):
    """The file of a program, which may still have to be built."""
    if IS_CHECKOUT:
        return os.path.join(TOP, "crates", CRATES[name], "out", CRATES[name])
    beside = os.path.normpath(os.path.join(TOP, "..", "..", "bin", name))
    found = beside if os.access(beside, os.X_OK) else shutil.which(name)
    if found is None:
        raise Missing("%s is neither %s nor on the PATH" % (name, beside))
    return found


def file_of(name):
    """The file of a program, which the first call may build; then it stays what it is while this tool runs."""
    if IS_CHECKOUT and name not in started:
        words = ["demo", "1"] if name == "perple" else ["nothing"]
        done = subprocess.run([os.path.join(TOP, name)] + words, stdin=subprocess.DEVNULL, stdout=subprocess.DEVNULL,
                              stderr=None if name == "perple" else subprocess.DEVNULL, check=False)
        if done.returncode not in (0, USAGE) or not os.access(place_of(name), os.X_OK):
            raise Missing("%s is not built" % name)
        started.add(name)
    return place_of(name)


def run(name, words, text):
    """A call of a program: its status, its output and its line on standard error."""
    done = subprocess.run([file_of(name)] + words, input=text, capture_output=True, check=False)
    return done.returncode, done.stdout.decode("latin-1"), done.stderr.decode("latin-1").strip()


def knows(name, command):
    """Whether a program has a command: an older one does not know the newest ones. The text is that of a test which each command reads."""
    words = [command, "1"] if command in ("witness", "skew", "count", "replay", "run", "demo") else [command]
    return run(name, words, b"X86 T\n{ }\n P0 ;\n MOV [x],$1 ;\n MOV EAX,[x] ;\nexists 0:EAX=1\n")[0] != USAGE


def replays():
    """Words of replays, the plain ones first. At the rates 0 and 256 a seed changes nothing: no write drains by it, or each."""
    for iterations in ["1", "2", "10", "100"]:
        for rate in ["0", "256", "64", "128", "16"]:
            plain = ["replay", iterations, "--rate", rate, "--count", "heuristic"]
            yield plain
            for order in range(20):
                yield plain + ["--order", str(order)]
                if rate not in ("0", "256"):
                    yield plain + ["--order", str(order), "--seed", str(order + 1)]


def shown(text):
    """The words of the first replay that shows the outcome, where one does, and how many were tried."""
    tried = 0
    for words in replays():
        tried += 1
        status, out, _ = run("perple", words, text)
        if status == 0 and out.endswith("Seen yes\n"):
            return words, tried
    return None, tried
