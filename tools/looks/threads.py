"""What threads do while there is nothing for them to do, when they wake, and what they come to."""

import os
import re
import subprocess

from looks import answers
from looks.answers import draw
from looks.histories import LineRounds
from looks.refusals import COUNTER

# Of four nodes only the first one computes, some tenth of a second for each item.
ONE_THAT_COMPUTES = """kahn 2;
input i;
chan c1; chan c2; chan c3;
output o;
process work on 0 { var v; var n; loop { v = get i; n = 0; repeat 1000 { repeat 1000 { n = n + v * v + 1; } } put n to c1; } }
process p1 on 1 { var v; loop { v = get c1; put v to c2; } }
process p2 on 2 { var v; loop { v = get c2; put v to c3; } }
process p3 on 3 { var v; loop { v = get c3; put v to o; } }
"""


def processor_seconds(command):
    """The status of a command, what it wrote, and its processor time. What doesn't end is ended."""
    started = subprocess.Popen(["timeout", str(answers.SECONDS), *command], stdin=subprocess.DEVNULL, stdout=subprocess.PIPE)
    out = started.stdout.read()
    _, status, used = os.wait4(started.pid, 0)
    started.returncode = os.waitstatus_to_exitcode(status)
    return started.returncode, out, used.ru_utime + used.ru_stime


# Node 1 crashes once the first packet has come to it, and stays down for a while. Meanwhile node 0 sends it more, and node 2 computes.
ONE_THAT_IS_DOWN = """kahn 2;
input i; input j;
chan c;
output o; output q;
process a on 0 { var v; loop { v = get i; put v to c; } }
process b on 1 { var v; loop { v = get c; put v to o; } }
process d on 2 { var v; var n; loop { v = get j; n = 0; repeat 1000 { repeat 1000 { n = n + v * v + 1; } } put n to q; } }
"""
WAITING = {
    "a node that computes": (ONE_THAT_COMPUTES, "i: 1 2 3 4 5 6 7 8\n", ""),
    "a node that is down": (ONE_THAT_IS_DOWN, "i: 1 2 3\nj: 1 2 3 4 5 6 7 8\n", "0 crash 1 delivery 1 0 100\n"),
}


# A processor that is shared with others' work takes up to twice the time for the same: so one of these tries has to show that threads sleep.
# Threads that don't take more in each.
WAITING_TRIES = 5


def check_waiting(checks, program, room):
    """Threads that have nothing to do sleep: while one node computes the others take next to no processor time, also where one is down for which
    a packet is due."""
    net, inputs, script = room / "computes.net", room / "computes.inputs", room / "computes.script"
    for name, (net_text, items, lines) in WAITING.items():
        net.write_text(net_text)
        inputs.write_text(items)
        script.write_text(lines)
        words = ["--script", script, net, inputs]
        for _ in range(WAITING_TRIES):
            status, expected, by_turns = processor_seconds([program, "--plain", *words])
            checks.note(f"{name}, by turns", None if status == 0 else f"status {status}")
            status, streams, by_threads = processor_seconds([program, *words])
            same = status == 0 and streams == expected
            checks.note(f"{name}, with threads", None if same else f"status {status}, {streams[:200]!r} and not {expected[:200]!r}")
            slept = by_threads <= 1.3 * by_turns + 0.1
            if slept or not same:
                break
        checks.note(f"{name}: threads that wait", None if slept else f"{by_threads:.2f} processor seconds with threads, {by_turns:.2f} by turns")


# One item goes round four nodes, and counts.
RING = """kahn 1; output o; chan a; chan b; chan c; chan d;
process p on 0 { var v; put 0 to a; loop { v = get d; put v to o; put v + 1 to a; } }
process q on 1 { var v; loop { v = get a; put v to b; } }
process r on 2 { var v; loop { v = get b; put v to c; } }
process s on 3 { var v; loop { v = get c; put v to d; } }
"""
WOKEN = 0.05            # the part of packets that has to come to a node which had nothing to do in their round; else one in fifty does
WOKEN_RUNS = 3          # in one of so many runs, since it depends on which thread is quicker
LATE_ROUNDS = 100


class Woken(draw.Chart):
    """A history, and how many packets came, and how many of them to a node that had nothing to do in the same round before."""

    def __init__(self, history):
        self.came, self.woke = 0, 0
        super().__init__(history)

    def add(self, event):
        if event.form.startswith("deliver"):
            self.came += 1
            self.woke += event.numbers[0] in self.passed
        super().add(event)


def check_woken(checks, run, room):
    """With threads a packet wakes the node to which it comes, and doesn't wait for the next round."""
    net, inputs, file = (room / f"woken.{which}" for which in ("net", "inputs", "history"))
    net.write_text(RING)
    inputs.write_text("")
    wanted, parts = f"o: {' '.join(map(str, range(60)))}\npartial\n", []
    for _ in range(WOKEN_RUNS):
        checks.comes("a ring of four nodes with threads", run(["--items", "60", "--history", file, net, inputs]), 3, wanted)
        woken = Woken(draw.History(file.read_text()))
        parts.append(woken.woke / max(woken.came, 1))
        if parts[-1] > WOKEN:
            break
    checks.note("nodes that a packet wakes", None if parts[-1] > WOKEN else f"{parts} of the packets woke their nodes")


def check_late_lines(checks, run, room):
    """With threads no line of the script comes more than a round late. One node is down, and the other one has nothing to do, so rounds are short;
    that a node is to start says nothing to it then."""
    net, inputs, script, file = (room / f"late.{which}" for which in ("net", "inputs", "script", "history"))
    net.write_text(TWO_SUMS)
    inputs.write_text("i:\n")
    script.write_text("0 crash 1 now 0 1000000\n" + "".join(f"{round} start 0\n" for round in range(1, LATE_ROUNDS)))
    answer = run(["--rounds", str(LATE_ROUNDS), "--script", script, "--history", file, net, inputs])
    chart = LineRounds(draw.History(file.read_text())) if answer.status == 3 and file.exists() else None
    late = [(nth, came) for nth, (_, came) in enumerate(chart.driven) if not nth <= came <= nth + 1] if chart else []
    fine = chart and not late and LATE_ROUNDS - 2 <= len(chart.driven) <= LATE_ROUNDS
    checks.note("lines of a script with threads", None if fine else f"{answer.told()[:300]}, {len(late)} lines too late or too soon, as {late[:5]}")


# Networks whose streams are plain, by what their runs need: the words, the network, its inputs, the status, the report, and the word behind it.
# (Of TWO_SUMS the second node has to be woken for each packet, of COUNTER 79 rounds have 64 items each, and GATED gets nothing from c
# before 200 items stand there.)
TWO_SUMS = ("kahn 1; input i; chan c; output o;\nprocess p on 0 { var a; var v; loop { v = get i; a = a + v; put a to c; } }\n"
            "process q on 1 { var a; var v; loop { v = get c; a = a + v; put a to o; } }\n")
GATED = ("kahn 2; output o; chan c; chan d;\nprocess p on 0 { repeat 200 { put 1 to c; } put 1 to d; }\n"
         "process q on 1 { var v; v = get d; loop { v = get c; put v to o; } }\n")
SLEEPERS = "input j; chan k; chan l;\n" + "".join(
    f"process s{node} on {node} {{ var v; loop {{ v = get {come}; {put} }} }}\n"
    for node, come, put in ((1, "j", "put v to k;"), (2, "k", "put v to l;"), (3, "l", "")))
GATED_LONG = GATED.replace("repeat 200 { put 1 to c; }", "repeat 5 { repeat 1000 { put 1 to c; } }")
ENDLESS = "chan e;\nprocess endless on {node} {{ var v; put 1 to e; loop {{ v = get e; put v + 1 to e; }} }}\n"
BY_HAND = {
    "packets that wake nodes": ([], TWO_SUMS, "i: 1 2 3\n", 0, "o: 1 4 10\ncomplete\n"),
    "many rounds": (["--items", "5000"], COUNTER, "", 3, f"o: {' '.join(map(str, range(5000)))}\npartial\n"),
    "a stop while nodes sleep": (["--items", "5000"], COUNTER + SLEEPERS, "j:\n", 3, f"o: {' '.join(map(str, range(5000)))}\npartial\n"),
    "rounds that are over": (["--rounds", "3"], COUNTER, "", 3, re.compile(r"\Ao: 0 1 2 [0-9 ]*\npartial\n\Z")),
    "channels that need more room": (["--room", "64"], GATED, "", 0, "o:" + " 1" * 200 + "\ncomplete\n"),
    "a channel that needs more room": ([], GATED_LONG, "", 0, "o:" + " 1" * 5000 + "\ncomplete\n"),
    **{f"a channel that needs more room beside a process on node {node} that never rests":
       (["--rounds", "200"], GATED_LONG + ENDLESS.format(node=node), "", 3, "o:" + " 1" * 5000 + "\npartial\n") for node in (0, 1, 2)},
}


def check_by_hand(checks, run, room, words):
    """Runs that come to what was worked out by hand, by turns or with threads, with a history and without."""
    net, inputs = room / "by_hand.net", room / "by_hand.inputs"
    for name, (asked, net_text, items, status, out) in BY_HAND.items():
        net.write_text(net_text)
        inputs.write_text(items)
        for more in ([], ["--history", "/dev/null"]):
            checks.comes(f"{name}, {[*words, *asked, *more]}", run([*words, *asked, *more, net, inputs]), status, out)
