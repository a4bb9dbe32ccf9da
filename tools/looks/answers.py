"""What came of a command, the checks that are made of it, and what all of them share."""

import importlib.machinery
import importlib.util
import pathlib
import subprocess
import sys
import threading

TOP = pathlib.Path(__file__).resolve().parent.parent.parent
BUILT = TOP / "crates/kahnrun/out/kahnrun"
LAUNCHER = TOP / "kahnrun"
EXAMPLES = TOP / "examples"
TUTORIAL = TOP / "docs/TUTORIAL.md"
PICTURES = TOP / "docs/pictures"
NOBODY = 65534      # the user who may write nothing, where the gate runs as root
SECONDS = 300       # the time that one run may take
PARTS = 64          # how many checks go side by side, at most
AGAIN = "again"     # the file with the names of parts that are made again
APPROXIMATION = 200  # one that has all that an example's expected text has
STORM = 100         # runs of the storm
KILLS = 50          # kills of runs that keep what left
MOST_REFUSED = 3000  # the last request that is refused, more than any of these runs makes


def tool(name):
    """Another tool of this folder as a module."""
    sys.dont_write_bytecode = True
    loader = importlib.machinery.SourceFileLoader(name, str(TOP / "tools" / name))
    module = importlib.util.module_from_spec(importlib.util.spec_from_loader(name, loader))
    loader.exec_module(module)
    return module


refuse_memory = tool("refuse_memory")
file_calls = tool("file_calls")
storm = tool("storm")
draw = tool("draw")
wrong_bodies = tool("wrong_bodies")
tables = tool("tables")
mutants = tool("mutants")
random_networks = tool("random_networks")


class Answer:
    """What came of a command: its status, and what it wrote."""

    def __init__(self, command, cwd=TOP, stdin=subprocess.DEVNULL, given=None, seconds=None, **more):
        """`given` is what comes by a pipe as standard input."""
        seconds = seconds or SECONDS
        source = {"input": given} if given is not None else {"stdin": stdin}
        try:
            ran = subprocess.run(command, cwd=cwd, capture_output=True, timeout=seconds, **source, **more)
            self.status, self.bytes, self.err = ran.returncode, ran.stdout, ran.stderr.decode(errors="replace")
        except (subprocess.TimeoutExpired, OSError) as error:
            self.status, self.bytes, self.err = None, b"", str(error)
        self.out = self.bytes.decode(errors="replace")

    def told(self):
        return f"status {self.status}, out {self.out[:200]!r}, err {self.err[:300]!r}"

    def streams(self):
        """The streams of a report, by name, or nothing."""
        lines = self.out.splitlines()
        if not lines or lines[-1] not in ("complete", "partial") or self.status != (0 if lines[-1] == "complete" else 3):
            return None
        rows = [line.partition(":") for line in lines[:-1]]
        return {name: items.split() for name, _, items in rows}


class Checks:
    """The checks that were made, and those that failed."""

    def __init__(self):
        self.lock, self.passed, self.failed = threading.Lock(), 0, 0

    def note(self, name, fault):
        """A check, with what is wrong, if anything is."""
        with self.lock:
            self.passed += not fault
            self.failed += bool(fault)
            if fault:
                print(f"FAILED {name}: {fault}", flush=True)

    def say(self, line):
        with self.lock:
            print(line, flush=True)

    def comes(self, name, answer, status, out, err=""):
        """That these came, to the letter. What is no text has to be found in what was written."""
        texts = all(text == came if isinstance(text, str) else text.search(came) for text, came in ((out, answer.out), (err, answer.err)))
        self.note(name, None if texts and answer.status == status else answer.told())


class Trial(Checks):
    """The checks of a part that gives way to the first stage, with what is wrong with those that fail."""

    def __init__(self):
        super().__init__()
        self.faults = []

    def note(self, name, fault):
        with self.lock:
            self.passed += not fault
            self.failed += bool(fault)
            if fault:
                self.faults.append((name, fault))

    def may_lack_time(self, part):
        """Whether all that failed may have failed for want of time alone: runs that didn't end, and checks of wrong bodies, which look at the clock."""
        return part == "mutants" or all(fault.startswith(tables.LATE) for _, fault in self.faults)


# Memory.


# The running sum of the examples, its report, and other words that several subjects name.
SUM = "examples/running_sum.net"
ITEMS = "examples/running_sum.inputs"
REPORT = "o: 1 3 6\ncomplete\n"
COMPLETE = "complete\n"
ENDS = 30               # the seconds within which a run ends that waits for nobody


def new_folder(room, name):
    (room / name).mkdir()
    return room / name
