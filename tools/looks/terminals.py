"""What a terminal shows while a run is at work."""

import contextlib
import os
import pty
import re
import subprocess
import tempfile
import time

from looks import answers
from looks.answers import Answer, draw, EXAMPLES, REPORT
from looks.refusals import explained


def on_terminal(command):
    """The status of a command, what it wrote on standard output, and what on a terminal as its standard error."""
    here, there = pty.openpty()
    with tempfile.TemporaryFile() as out:
        started = subprocess.Popen(["timeout", str(answers.SECONDS), *command], stdin=subprocess.DEVNULL, stdout=out, stderr=there)
        os.close(there)
        told = b""
        with contextlib.suppress(OSError):      # the terminal is closed at the end
            while part := os.read(here, 4096):
                told += part
        os.close(here)
        status = started.wait()
        out.seek(0)
        return status, out.read(), told


# Of two nodes the first one computes, and by each output some items leave in each round. The names of the outputs are such that the line is
# soon as wide as it may be, and is cut.
LONG_NAME = "a_name_that_fills_the_line_nearly_up"
SHOWN_NET = f"""kahn 2; input i; chan c; output o; output r; output {LONG_NAME}; output further;
process work on 0 {{
  var v; var n;
  loop {{ v = get i; n = 0; repeat 1000 {{ n = n + v * v + 1; }} put v to c; put v to r; put v to {LONG_NAME}; put v to further; }}
}}
process last on 1 {{ var v; loop {{ v = get c; put v to o; }} }}
"""
SHOWN = re.compile(rb"\rround (\d+), items left: o (\d+) r (\d+)(?: " + LONG_NAME.encode() + rb" \d+)?(?: further \d+| \.\.)\x1b\[K")
SHOWN_SECONDS = 1.7     # how long such a run goes on, so that the line stands for some time
COLUMNS = 80            # of a terminal


def has_terminals(checks):
    """Whether the host has pseudo-terminals."""
    try:
        os.close(os.open("/dev/ptmx", os.O_RDWR | os.O_NOCTTY))
        return True
    except OSError:
        checks.say("left out: what is told on a terminal, since the host has no pseudo-terminal")
        return False


class Moments(draw.Chart):
    """Each round of a history with how many items had left by the first two outputs: all that was so at some moment."""

    def __init__(self, history):
        self.left, self.found = {history.channels.index(it): 0 for it in history.channels if it[0] in "or"}, set()
        super().__init__(history)

    def add(self, event):
        self.found.add((self.round, *self.left.values()))
        super().add(event)
        if event.answer == "released # #" and event.told[0] in self.left:
            self.left[event.told[0]] = event.told[1]
        self.found.add((self.round, *self.left.values()))


class ShownRun:
    """A run that goes on for longer than a second, and what a terminal showed of it: with threads, or by turns. By turns it is run once more with
    its history, for as long at least, and tells how far it had come at each moment."""

    def __init__(self, program, room, words):
        net, inputs, history = (room / f"shown.{which}" for which in ("net", "inputs", "history"))
        net.write_text(SHOWN_NET)
        for self.items in (6_000, 12_000, 24_000, 48_000, 96_000):
            items = " ".join(map(str, range(self.items)))
            inputs.write_text(f"i: {items}\n")
            command = [program, "--rounds", "1000000", net, inputs, *words]
            self.answer, seconds = self.timed(command)
            self.with_history = None
            if words:
                self.with_history, more = self.timed([*command, "--history", history])
                seconds = min(seconds, more)
            if seconds > SHOWN_SECONDS or self.answer[0] != 0:
                break
        self.report = "".join(f"{name}: {items}\n" for name in ("o", "r", LONG_NAME, "further")) + "complete\n"
        self.moments = Moments(draw.History(history.read_text())).found if history.exists() else None

    @staticmethod
    def timed(command):
        """What a terminal showed of a command, and how many seconds it took."""
        started = time.monotonic()
        answer = on_terminal(command)
        return answer, time.monotonic() - started


def check_lines(checks, name, shown, answer):
    """What a terminal showed: a line that is written anew, is never wider than a terminal, and is wiped away. By turns each is so at some moment
    of the history; with threads none falls behind the one before, and the last one comes near to what left in the end."""
    status, out, told = answer
    lines = [tuple(map(int, found)) for found in SHOWN.findall(told)]
    fine = (status, out) == (0, shown.report.encode()) and re.fullmatch(rb"(" + SHOWN.pattern + rb")+\r\x1b\[K", told)
    checks.note(name, None if fine else f"status {status}, {told[:600]!r}")
    rises = len(set(lines)) > 1 and all(a <= b for one, other in zip(lines, lines[1:]) for a, b in zip(one, other))
    checks.note(f"{name}, written anew", None if rises and min(lines[-1]) > 0 else str(lines[:20]))
    wide = max((len(part) for part in re.findall(rb"\r([^\r\x1b]+)", told)), default=0)
    checks.note(f"{name}, as wide as a terminal", None if wide <= COLUMNS else f"{wide} columns")
    if shown.moments is not None:
        others = sorted(set(lines) - shown.moments)
        checks.note(f"{name}, by the history", f"it was never so: {others[:5]}" if others else None)
    near = lines and shown.items // 3 < max(lines[-1][1:]) <= shown.items
    checks.note(f"{name}, in the end", None if near else f"{lines[-1:]} of {shown.items} items")


def check_shown(checks, program, room, words):
    """How far a run has come, as it stands on a terminal."""
    if not has_terminals(checks):
        return
    shown, name = ShownRun(program, room, words), f"how far a run has come, on a terminal {' '.join(words)}"
    check_lines(checks, name, shown, shown.answer)
    if shown.with_history:
        check_lines(checks, f"{name} with a history", shown, shown.with_history)


# A counter that computes for a millisecond before each number, so that no machine comes to a million of them while a check waits.
SLOW_COUNTER = """kahn 2; chan next; output o;
process count on 0 {
  var n; var m; put 0 to next;
  loop { n = get next; repeat 1000 { repeat 100 { m = m + n * n + 1; } } put n to o; put n + 1 to next; }
}
"""


def check_terminal(checks, program, room):
    """On a terminal nothing comes in a short run, where it is to be quiet, and where there is no terminal; and a refusal has its second line there
    without being asked for."""
    if not has_terminals(checks):
        return
    words = [EXAMPLES / "running_sum.net", EXAMPLES / "running_sum.inputs"]
    for way, times in (["--plain"], 1), ([], SHORT_RUNS):
        answers = short_answers([program, *way, *words], times)
        checks.note(f"a short run on a terminal {' '.join(way)}", None if answers == {(0, REPORT.encode(), b"")} else repr(answers))
    net = room / "terminal.net"
    net.write_text("kahn 1;\nputput\n")
    _, line, told = explained(net, "kahn 1;\n@putput\n", "found `putput`, expected `input`, `chan`, `output`, `process` or the end of the text")
    answer = on_terminal([program, net, words[1]])
    wanted = f"net line {line}: refusal 3\n{told}".replace("\n", "\r\n").encode()
    checks.note("a refused text on a terminal", None if answer == (2, b"", wanted) else repr(answer))
    counting = room / "counting.net"
    counting.write_text(SLOW_COUNTER)
    endless = [program, "--plain", "--rounds", "1000000", "--items", "1000000", counting, EXAMPLES / "counter.inputs"]
    status, _, told = on_terminal(["timeout", str(ENDLESS_SECONDS), *endless, "--quiet"])
    checks.note("how far a run has come, where it is to be quiet", None if (status, told) == (124, b"") else f"status {status}, {told[:300]!r}")
    silent = Answer(["timeout", str(ENDLESS_SECONDS), *endless])
    checks.note("how far a run has come, on no terminal", None if (silent.status, silent.err) == (124, "") else silent.told())


ROUNDS = 1_000_000      # the most that a run may be allowed


def check_rounds_shown(checks, program, room):
    """While one node is down for all rounds that there are, and no other has anything to do, each round lets in who shows on a terminal how far
    the run has come."""
    if not has_terminals(checks):
        return
    net, inputs, script = (room / f"down.{which}" for which in ("net", "inputs", "script"))
    inputs.write_text("i: 1 2 3\n")
    script.write_text(f"0 crash 1 now 0 {ROUNDS}\n")
    for nodes in (2, 4, 8, 16):
        names = ["i", *(f"c{number}" for number in range(1, nodes)), "o"]
        channels = "".join(f"chan {name}; " for name in names[1:-1])
        chain = "".join(f"process p{number} on {number} {{ var v; loop {{ v = get {names[number]}; put v to {names[number + 1]}; }} }}\n"
                        for number in range(nodes))
        net.write_text(f"kahn 2; input i; {channels}output o;\n{chain}")
        started = time.monotonic()
        status, out, told = on_terminal([program, "--rounds", str(ROUNDS), "--script", script, net, inputs])
        if time.monotonic() - started > SHOWN_SECONDS:
            break
    rounds = [int(found) for found in re.findall(rb"\rround (\d+), items left: o 0\x1b\[K", told)]
    fine = (status, out) == (3, b"o:\npartial\n") and len(rounds) > 1 and rounds == sorted(set(rounds))
    checks.note(f"rounds in which nothing is done, on a terminal, of {nodes} nodes", None if fine else f"status {status}, {out!r}, {rounds}")


def short_answers(command, times):
    """What comes on a terminal of so many runs that are over before a line may come. On a loaded machine one may take longer: then it is made again,
    up to a limit."""
    answers, tries = [], 0
    while len(answers) < times and tries < times + SLOW_RUNS:
        started, tries = time.monotonic(), tries + 1
        answer = on_terminal(command)
        if time.monotonic() - started < LINE_SECONDS:
            answers.append(answer)
    return set(answers) if len(answers) == times else f"{len(answers)} of {tries} runs were short"


SHORT_RUNS = 25     # of one with threads, which is over before a line could be written in most of them
SLOW_RUNS = 50      # so many more may be slow
LINE_SECONDS = 1.0  # before that no line comes
ENDLESS_SECONDS = 3   # how long a run goes on that doesn't end: a line comes after a second, and a loaded machine may begin late


# Files and statuses.
