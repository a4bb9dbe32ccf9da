"""./kahnrun in trees that are read alone, changed, or not built."""

import hashlib
import os
import pathlib
import re
import shutil
import signal
import statistics
import subprocess
import time

from looks.answers import Answer, wrong_bodies, EXAMPLES, ITEMS, NOBODY, REPORT, SUM, TOP


def copied_tree(room, program):
    """A copy of the files that the launcher needs, in which this program stands in the place of the proved one."""
    tree = room / "tree"
    (tree / "crates/kahnrun/out").mkdir(parents=True)
    (tree / "tools").mkdir()
    for path in ("kahnrun", "crates.txt", "tools/compile_unproved"):
        shutil.copy2(TOP / path, tree / path)
    shutil.copy(program, tree / "crates/kahnrun/out/kahnrun")
    for folder in (TOP / "crates").iterdir():
        for part in ("src", "specs", "proofs"):
            if (folder / part).is_dir():
                shutil.copytree(folder / part, tree / "crates" / folder.name / part)
    shutil.copytree(EXAMPLES, tree / "examples")
    return tree


def read_only(tree):
    """Takes the leave to write from a tree, and lets everybody read it."""
    for folder, _, files in os.walk(tree, topdown=False):
        for name in files:
            path = os.path.join(folder, name)
            os.chmod(path, os.stat(path).st_mode & 0o555 | 0o444)
        os.chmod(folder, 0o555)


def writable(tree):
    for folder, _, _ in os.walk(tree):
        os.chmod(folder, 0o755)


def without_rt():
    """The environment without `rt`, or nothing where it stands beside the commands of the system."""
    path = "/usr/bin:/bin"
    return None if shutil.which("rt", path=path) else os.environ | {"PATH": path}


def sum_of(tree):
    """The sum by which the launcher keeps an unproved program: of all that it is made of, and of nothing else."""
    crates = wrong_bodies.libraries(tree)
    wanted = ["kahnrun"]
    for name in wanted:
        wanted += [it for it in crates[name][1] if it not in wanted]
    names = sorted(str(path.relative_to(tree)) for name in wanted for path in (tree / "crates" / name / "src").rglob("*") if path.is_file())
    lines = sorted(f"{crates[name][0]}\n" for name in wanted)
    lines += [f"{hashlib.sha256((tree / name).read_bytes()).hexdigest()}  {name}\n" for name in names]
    return hashlib.sha256("".join(lines).encode()).hexdigest()[:32]


def check_unbuilt(checks, program, room):
    """The launcher where a source is newer than the program, and where the program isn't built: it says so, and asks `rt`, which isn't
    there. Where it compiled the same sources before, it runs what it kept."""
    tree, bare = copied_tree(room / "unbuilt", program), without_rt()
    if bare is None:
        checks.say("left out: ./kahnrun without rt, since rt stands beside the commands of the system")
        return
    told = re.compile(r"\Akahnrun: runs unproved, .*\nkahnrun: cannot run rt: .*\n\Z")
    program, source = tree / "crates/kahnrun/out/kahnrun", tree / "crates/kahnrun/src/main.rt"
    kept = program.parent / "unproved" / sum_of(tree) / "kahnrun"
    for name, change in (("a source that is newer", source.touch), ("a program that isn't built", lambda: program.rename(program.with_name("other")))):
        change()
        checks.comes(f"./kahnrun with {name}", Answer(["./kahnrun", SUM, ITEMS], cwd=tree, env=bare), 1, "", told)
    kept.parent.mkdir(parents=True)
    shutil.copy2(program.with_name("other"), kept)
    source.touch()
    runs = re.compile(r"\Akahnrun: runs unproved; .*\n\Z")
    checks.comes("./kahnrun with a program that it kept", Answer(["./kahnrun", SUM, ITEMS], cwd=tree, env=bare), 0, REPORT, runs)
    seconds = [elapsed(["./kahnrun", SUM, ITEMS], tree, bare) for _ in range(20)]
    checks.say(f"./kahnrun with a program that it kept: {statistics.median(seconds):.3f} seconds, the median of 20")
    source.write_text(source.read_text() + "\n")
    checks.comes("./kahnrun with a source that is another", Answer(["./kahnrun", SUM, ITEMS], cwd=tree, env=bare), 1, "", told)


def check_crates_of_ones_own(checks, program, room):
    """The proved program where crates.txt has changed since it was built: a line for a crate that it has nothing to do with changes nothing, and
    one of a crate that it stands on does."""
    tree, bare = copied_tree(room / "own", program), without_rt()
    if bare is None:
        return
    crates, built, note = tree / "crates.txt", tree / "crates/kahnrun/out/kahnrun", tree / "crates/kahnrun/out/kahnrun.lines"
    lines, sum_before = crates.read_text(), sum_of(tree)
    unproved = re.compile(r"\Akahnrun: runs unproved, .*\nkahnrun: cannot run rt: .*\n\Z")

    def comes(name, is_proved):
        answer = Answer(["./kahnrun", SUM, ITEMS], cwd=tree, env=bare)
        checks.comes(f"./kahnrun {name}", answer, *((0, REPORT, "") if is_proved else (1, "", unproved)))

    def newer(text):
        """crates.txt has this text, and is newer than the program."""
        crates.write_text(text)
        os.utime(crates, ns=(0, built.stat().st_mtime_ns + 10**9))

    newer(lines)
    comes("whose crates.txt is newer, before the program was ever run", False)
    os.utime(built, ns=(0, crates.stat().st_mtime_ns + 10**9))
    comes("whose program is newer", True)
    newer(f"mine: kahn_net thiserror\n{lines}# the end\n")
    comes("with a line for a crate of one's own", True)
    checks.note("the sum of the sources, with a line for a crate of one's own", None if sum_of(tree) == sum_before else "another one")
    for name, line, other in (("with another line of a crate below", "\nnet_text: kahn_net thiserror\n", "\nnet_text: kahn_net\n"),
                              ("with another line of its own crate", "\nkahnrun: ", "\nkahnrun: mine "),
                              ("without the line of a crate below", "\nkahn_net:\n", "\n")):
        newer(lines.replace(line, other))
        comes(name, False)
        checks.note(f"the sum of the sources {name}", None if sum_of(tree) != sum_before else "the same")
    newer(lines)
    comes("whose lines are as they were", True)
    time_before = built.stat().st_mtime_ns
    built.write_bytes(built.read_bytes() + b"\n")
    os.utime(built, ns=(0, time_before))
    comes("whose program is another one, older than crates.txt", False)
    note.write_text("no note\n")
    comes("whose note is of nothing", False)


# In the place of tools/measured_build: reading and compiling are noted in a file, and take as long as a file says that isn't there; what is
# compiled is a script that says how far it was optimized, and runs the program.
STAND_IN = """import os, pathlib, sys, time
ROOM, PROGRAM = pathlib.Path({room!r}), {program!r}

def does(what):
    alone = os.getsid(0) == os.getpid()
    with open(ROOM / "log", "a") as log:
        log.write(what + (" by itself" if alone else "") + "\\n")
    while not (ROOM / what).exists():
        time.sleep(0.02)

def kit_folder():
    return None

def module_of(kit, room, name):
    does("read")
    if (ROOM / "wrong").exists():
        sys.exit("src/main.rt:1:1: error: it is wrong")
    return room

def compiled(kit, room, module, out, with_traps, level):
    out.write_text("half")
    does(f"level {{level}}")
    out.write_text(f"#!/bin/sh\\necho level {{level}} >&2\\nexec {{PROGRAM}} \\"$@\\"\\n")
    out.chmod(0o755)
"""


class Compiling:
    """A tree whose launcher has to compile the program, by a stand-in for the compiler, which waits where it is told to."""

    def __init__(self, program, room):
        self.room, self.tree = room, copied_tree(room, program)
        kept = room / "program"
        (self.tree / "crates/kahnrun/out/kahnrun").rename(kept)
        (self.tree / "tools/measured_build").write_text(STAND_IN.format(room=str(room), program=str(kept)))
        (room / "bin").mkdir()
        (room / "bin/rt").write_text("#!/bin/sh\nexit 1\n")
        (room / "bin/rt").chmod(0o755)
        self.environment = os.environ | {"PATH": f"{room / 'bin'}:{os.environ['PATH']}"}
        self.kept = self.tree / "crates/kahnrun/out/unproved" / sum_of(self.tree)

    def lets(self, *names):
        for name in names:
            (self.room / name).touch()

    def holds(self, *names):
        for name in names:
            (self.room / name).unlink(missing_ok=True)

    def log(self):
        """What was done so far. The file isn't there before the first thing is."""
        log = self.room / "log"
        return log.read_text().split("\n")[:-1] if log.exists() else []

    def forget(self):
        shutil.rmtree(self.kept, ignore_errors=True)
        (self.room / "log").unlink(missing_ok=True)

    def started(self):
        return subprocess.Popen(["./kahnrun", SUM, ITEMS], cwd=self.tree, env=self.environment, stdin=subprocess.DEVNULL,
                                stdout=subprocess.PIPE, stderr=subprocess.PIPE, text=True, start_new_session=True)

    def answer(self):
        return Answer(["./kahnrun", SUM, ITEMS], cwd=self.tree, env=self.environment, seconds=60)

    def comes_to(self, holds):
        """Whether this is so within a minute."""
        return any(holds() or time.sleep(0.02) for _ in range(3000))

    def files(self):
        return sorted(path.name for path in self.kept.iterdir()) if self.kept.exists() else []

    def is_awaited(self):
        """Whether a process waits for the lock of what is kept, as the system tells."""
        lock = f":{(self.kept / 'lock').stat().st_ino} "
        return any(" -> " in line and lock in line for line in pathlib.Path("/proc/locks").read_text().splitlines())


UNPROVED = "kahnrun: runs unproved{}; to prove and build it: cd crates/kahnrun && rt run -- NET INPUTS\n"
STAGES = ("kahnrun: 1 of 2: the sources are read, which takes longest\nkahnrun: 2 of 2: they are compiled, not optimized\n"
          "kahnrun: runs, not optimized; the optimized program is compiled behind it, for the calls that follow\n")


def check_compiling(checks, program, room):
    """The launcher compiles the program: it tells how far it is, answers with one that isn't optimized, and compiles the other behind it."""
    tree = Compiling(program, room / "compiling")
    tree.lets("read", "level 0")
    # (the process behind waits now, so an answer comes only where that one holds nothing of the caller's)
    checks.comes("./kahnrun compiles", tree.answer(), 0, REPORT, UNPROVED.format(", compiled now and kept") + STAGES + "level 0\n")
    for _ in range(2):
        checks.comes("./kahnrun while the optimized program is compiled", tree.answer(), 0, REPORT, UNPROVED.format(", and not optimized") + "level 0\n")
    checks.note("./kahnrun compiles once, behind it by itself", None if tree.comes_to(lambda: tree.log() == ["read", "level 0", "level 3 by itself"]) else str(tree.log()))
    checks.note("./kahnrun, what isn't whole", None if tree.files() == ["first", "lock", "making"] else str(tree.files()))
    tree.lets("level 3")
    checks.note("./kahnrun, what is kept", None if tree.comes_to(lambda: tree.files() == ["first", "kahnrun", "lock"]) else str(tree.files()))
    checks.comes("./kahnrun once it is compiled", tree.answer(), 0, REPORT, UNPROVED.format("") + "level 3\n")

    tree.forget()
    tree.holds("read")
    killed = tree.started()
    checks.note("./kahnrun that is to be killed", None if tree.comes_to(lambda: "making" in tree.files() and tree.log()) else str(tree.files()))
    os.killpg(killed.pid, signal.SIGKILL)
    killed.communicate()
    checks.note("./kahnrun that was killed leaves no program", None if tree.files() == ["lock", "making"] else str(tree.files()))
    both = [tree.started() for _ in range(2)]
    checks.note("two ./kahnrun at once", None if tree.comes_to(lambda: tree.log() == ["read", "read"]) else str(tree.log()))
    checks.note("two ./kahnrun at once, of which one waits", None if tree.comes_to(tree.is_awaited) else "none waits for the lock")
    tree.lets("read")
    told = sorted((*it.communicate(timeout=60), it.returncode) for it in both)
    waited = "kahnrun: another call compiles it already, and this one waits for that\n"
    fine = [it[::2] for it in told] == [(REPORT, 0)] * 2 and sum(waited in it[1] for it in told) == 1 and tree.log().count("read") == 2
    checks.note("two ./kahnrun at once compile once", None if fine else f"{told}, {tree.log()}")
    checks.note("./kahnrun, what is kept then", None if tree.comes_to(lambda: tree.files() == ["first", "kahnrun", "lock"]) else str(tree.files()))

    (tree.kept / "kahnrun").unlink()
    checks.comes("./kahnrun without the optimized program", tree.answer(), 0, REPORT, UNPROVED.format(", and not optimized") + "level 0\n")
    checks.note("./kahnrun makes up for it", None if tree.comes_to(lambda: tree.files() == ["first", "kahnrun", "lock"]) else str(tree.files()))
    tree.forget()
    tree.lets("wrong")
    answer, first = tree.answer(), UNPROVED.format(", compiled now and kept") + STAGES.splitlines(keepends=True)[0]
    checks.comes("./kahnrun of what is wrong", answer, 1, "", first + "kahnrun: the sources can't be compiled:\nsrc/main.rt:1:1: error: it is wrong\n")
    checks.note("./kahnrun of what is wrong keeps nothing", None if tree.files() == ["lock"] else str(tree.files()))

    tree.forget()
    tree.holds("wrong", "level 3")
    tree.kept.parent.rmdir()
    tree.kept.parent.write_text("no folder\n")
    told = re.compile(r"\Akahnrun: runs unproved, compiled now and not kept, .*\n(kahnrun: .*\n){2}kahnrun: runs, not optimized\nlevel 0\n\Z")
    checks.comes("./kahnrun where nothing can be kept", tree.answer(), 0, REPORT, told)
    checks.note("./kahnrun where nothing can be kept compiles nothing behind it", None if tree.log() == ["read", "level 0"] else str(tree.log()))


def elapsed(command, folder, environment):
    """The seconds that a command takes by the clock."""
    began = time.monotonic()
    Answer(command, cwd=folder, env=environment)
    return time.monotonic() - began


def check_read_only(checks, program, room):
    """A run in a tree that can't be written, as somebody who may not write there."""
    tree = copied_tree(room / "unwritable", program)
    read_only(tree)
    as_nobody = {"user": NOBODY, "group": NOBODY, "extra_groups": []} if os.getuid() == 0 else {}
    for folder in (room, tree.parent):
        folder.chmod(0o755)
    touched = Answer(["touch", str(tree / "crates/kahnrun/out/new")], **as_nobody)
    if touched.status in (0, None):
        checks.say(f"left out: a read-only tree, since its files can be written (touch: {touched.told()})")
    else:
        checks.comes("a read-only tree", Answer(["./kahnrun", SUM, ITEMS], cwd=tree, **as_nobody), 0, REPORT)
    writable(tree)


def check_launcher_elsewhere(checks, launcher, room):
    """The launcher by its path, by a link, and in another folder."""
    (room / "link").symlink_to(launcher)
    checks.comes("./kahnrun by its path", Answer([launcher, TOP / SUM, TOP / ITEMS], cwd=room), 0, REPORT)
    checks.comes("./kahnrun by a link", Answer(["./link", TOP / SUM, TOP / ITEMS], cwd=room), 0, REPORT)


# The storm, the programs of bench/ and the documents.

# Threads.
