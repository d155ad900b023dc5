"""What the benchmarks share: the two built programs, runs of them that are timed, and pages whose commands are run; and the folder
of the modules that they have in common with the tools."""
import os
import re
import subprocess
import sys
import tempfile
import time

HERE = os.path.dirname(os.path.abspath(__file__))
TOP = os.path.dirname(HERE)
PERPLE = os.path.join(TOP, "crates", "perple_main", "out", "perple_main")
TOOL = os.path.join(TOP, "crates", "tool_main", "out", "tool_main")
sys.path.append(os.path.join(TOP, "tools"))
STARTERS = {PERPLE: "perple", TOOL: "perple_tool"}


def build(program=PERPLE):
    """Has a program built, as its first user would, where it is not there yet; not where PERPLE_AS_BUILT is set."""
    if os.access(program, os.X_OK):
        return
    if os.environ.get("PERPLE_AS_BUILT"):
        sys.exit("the program is not built")
    subprocess.run([os.path.join(TOP, STARTERS[program]), "nothing"],
                   stdin=subprocess.DEVNULL, stdout=subprocess.DEVNULL, check=False)
    if not os.access(program, os.X_OK):
        sys.exit("the program is not built")


def example(name):
    with open(os.path.join(TOP, "examples", name + ".litmus"), "rb") as file:
        return file.read()


class Ran:
    """One run: its status, its output and its seconds. `more` is put into its environment."""

    def __init__(self, words, text, cores=None, limit=600, program=PERPLE, more=None):
        command = [program] + [word if isinstance(word, bytes) else str(word) for word in words]
        if cores is not None:
            command = ["taskset", "-c", cores] + command
        before = time.perf_counter()
        child = subprocess.Popen(command, stdin=subprocess.PIPE, stdout=subprocess.PIPE, stderr=subprocess.PIPE,
                                 env={**os.environ, **(more or {})})
        try:
            self.out, self.err = child.communicate(text, timeout=limit)
        except subprocess.TimeoutExpired:
            child.kill()
            self.out, self.err = child.communicate()
        self.seconds = time.perf_counter() - before
        self.status = child.returncode

    def line(self, word):
        """The number on the report's line of this word."""
        for line in self.out.decode("ascii", "replace").splitlines():
            if line.startswith(word + " "):
                return int(line.split()[1])
        return None


def best(words, text, cores=None, times=3, program=PERPLE):
    """The fastest of some runs."""
    runs = [Ran(words, text, cores, program=program) for _ in range(times)]
    for run in runs:
        if run.status != 0:
            sys.exit("status %d: %s" % (run.status, run.err.decode("ascii", "replace")))
    return min(runs, key=lambda run: run.seconds)


def peak(words, text, program=PERPLE):
    """The most memory that a run had, in KiB, as the system tells it while the run goes on."""
    with tempfile.TemporaryFile() as file:
        file.write(text)
        file.seek(0)
        child = subprocess.Popen([program] + [str(word) for word in words], stdin=file, stdout=subprocess.DEVNULL,
                                 stderr=subprocess.DEVNULL)
        most = 0
        while child.poll() is None:
            try:
                with open("/proc/%d/status" % child.pid) as status:
                    most = max([most] + [int(line.split()[1]) for line in status if line.startswith("VmHWM:")])
            except OSError:
                break
        child.wait()
        return most


def commands(path):
    """The commands of a page, each with the lines that it prints."""
    with open(path) as page:
        for block in re.findall(r"```console\n(.*?)```", page.read(), re.S):
            for command in re.split(r"^\$ ", block, flags=re.M)[1:]:
                words, _, printed = command.partition("\n")
                yield words, printed


def fits(printed, out):
    """Whether this was printed; on a page `..` stands for what depends on the schedule."""
    pattern = ".*".join(re.escape(part) for part in printed.split(".."))
    return re.fullmatch(pattern, out) is not None


def follow(path, folder, shell=("bash", "-c"), env=None):
    """Does what a page says, and tells how many commands it has."""
    count = 0
    for words, printed in commands(path):
        ran = subprocess.run([*shell, words], cwd=folder, capture_output=True, text=True, check=False, env=env)
        if not fits(printed, ran.stdout + ran.stderr):
            sys.exit("$ %s\nprinted\n%s%snot\n%s" % (words, ran.stdout, ran.stderr, printed))
        count += 1
    return count
