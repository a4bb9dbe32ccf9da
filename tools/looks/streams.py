"""Networks on items that come while they run."""

import contextlib
import itertools
import os
import pathlib
import pty
import random
import re
import subprocess
import threading
import time

from looks.answers import Answer, new_folder, random_networks, COMPLETE, ENDS, EXAMPLES, ITEMS, SUM, TOP, TUTORIAL
from looks.documents import blocks, expected_streams
from looks.terminals import has_terminals
from looks.refusals import REFUSED

BARE = "--stream=bare"
BY_PIPE = ["--input", "i=-"]
UNWRITTEN = "output: cannot be written\n"
LEAST, GREATEST = -2**63, 2**63 - 1

# What comes to the running sum, the sums by hand, and what is told of a bad item.
COMING = {
    "an item in each line": (b"1\n2\n3\n", [1, 3, 6], None),
    "all that may stand between items": (b" \t1\r\n\n 2  -3\t", [1, 3, 0], None),
    "a last number without a line feed": (b"4\n5", [4, 9], None),
    "zeros in front, and a minus before a 0": (b"007 -0\n", [7, 7], None),
    "nothing": (b"", [], None),
    "no item": (b" \n\t\r\n", [], None),
    "the least and the greatest item": (b"-9223372036854775808 9223372036854775807", [LEAST, -1], None),
    "a letter behind a digit": (b"1\n2\n3x\n4\n", [1, 3], "line 3: refusal 2"),
    "a letter behind an item": (b"1\n2\n3 x\n4\n", [1, 3, 6], "line 3: refusal 2"),
    "a number above the greatest item": (b"1\n9223372036854775808\n2\n", [1], "line 2: refusal 4"),
    "a number below the least item": (b"-9223372036854775809\n", [], "line 1: refusal 4"),
    "a number past its range with a letter behind it": (b"99999999999999999999x", [], "line 1: refusal 4"),
    "a minus at the end": (b"1\n2\n-", [1, 3], "line 3: refusal 2"),
    "a minus before a space": (b"1 - 2\n", [1], "line 1: refusal 2"),
    "two minuses": (b"\n--1\n", [], "line 2: refusal 2"),
    "a minus behind a digit": (b"5 1-2\n", [5], "line 1: refusal 2"),
    "a plus": (b"5\n+2\n", [5], "line 2: refusal 2"),
    "a point": (b"1\n2.5\n", [1], "line 2: refusal 2"),
    "a comma": (b"1,2\n", [], "line 1: refusal 2"),
    "a comment": (b"1 # one\n", [1], "line 1: refusal 2"),
    "an input's name": (b"i: 1 2 3\n", [], "line 1: refusal 2"),
    "a byte that is no text": (b"3\n\xff\n", [3], "line 2: refusal 2"),
    "a byte of zeros": (b"3 \0", [3], "line 1: refusal 2"),
    # longer than what is read at once
    "many zeros in front": (b"0" * 70_000 + b"7\n", [7], None),
    "many spaces": (b"1" + b" " * 140_000 + b"7\n", [1, 8], None),
    "many lines before a letter": (b"4" + b"\n" * 140_000 + b"x", [4], "line 140001: refusal 2"),
}


def check_coming(checks, run):
    """What comes by a pipe to the running sum, and what leaves and is told then."""
    for name, (given, sums, fault) in COMING.items():
        told = f"input i {fault}\n" if fault else COMPLETE
        for mark, words in (("o ", ["--stream"]), ("", [BARE])):
            out = "".join(f"{mark}{item}\n" for item in sums)
            checks.comes(f"{words[0]}: {name}", run([*words, *BY_PIPE, SUM], given=given), 2 if fault else 0, out, told)


# An item of one input and one of the other are added up, again and again; and a network without an output.
TWO_INPUTS = "kahn 1; input i; input j; output o; process p on 0 { var v; var w; loop { v = get i; w = get j; put v + w to o; } }\n"
NO_OUTPUT = "kahn 1; input i; chan c; process p on 0 { var v; loop { v = get i; put v to c; v = get c; } }\n"


def check_sources(checks, program, run, room):
    """Where the items of an input come from: files, standard input and the text of the inputs; and sources that are refused."""
    files = {"i": "1 2\n3", "j": "10\n20\n", "bad": "4\n5 ?\n", "i.inputs": "i: 5\n", "both.inputs": "i: 5\nj:\n", "of i.inputs": "i: 5\n", "x.inputs": "x: 1\n",
             "bad.inputs": "i: 1 2 x\n", "two.net": TWO_INPUTS, "none.net": NO_OUTPUT, "a=b": "7\n", "loop.net": REFUSED["loop"]}
    for name, text in files.items():
        (room / name).write_text(text)
    (room / "bytes.net").write_bytes(b"kahn 1;\xff\n")
    os.mkfifo(room / "unwritten")
    i, j, two = f"i={room / 'i'}", f"j={room / 'j'}", room / "two.net"
    rows = [
        ("a file", ["--input", i, SUM], b"", 0, "1\n3\n6\n", COMPLETE),
        ("a file with an equals sign in its name", ["--input", f"i={room / 'a=b'}", SUM], b"", 0, "7\n", COMPLETE),
        ("the text of the inputs alone", [SUM, room / "i.inputs"], b"9", 0, "5\n", COMPLETE),
        ("items behind those of the text of the inputs", [*BY_PIPE, SUM, room / "i.inputs"], b"1 2", 0, "5\n6\n8\n", COMPLETE),
        ("two files", ["--input", i, "--input", j, two], b"", 0, "11\n22\n", COMPLETE),
        ("two files in another order", ["--input", j, two, "--input", i], b"", 0, "11\n22\n", COMPLETE),
        ("a file and a pipe", ["--input", "j=-", "--input", i, two], b"100 200 300 400", 0, "101\n202\n303\n", COMPLETE),
        ("a file behind items of the text, of which one input has none", ["--input", j, two, room / "both.inputs"], b"", 0, "15\n", COMPLETE),
        ("a word behind --", [*BY_PIPE, "--", SUM], b"4", 0, "4\n", COMPLETE),
        ("another room", ["--room", "64", *BY_PIPE, SUM], b"4", 0, "4\n", COMPLETE),
        ("a bad item in a file, with another input at its end", ["--input", i, "--input", f"j={room / 'bad'}", two], b"", 2, "5\n7\n", "input j line 2: refusal 2\n"),
        ("a file that isn't there", ["--input", "i=nowhere", SUM], b"", 1, "", "input i: cannot be read\n"),
        ("a folder", ["--input", "i=examples", SUM], b"", 1, "", "input i: cannot be read\n"),
        ("two sources of one input", [*BY_PIPE, "--input", i, SUM], b"1", 2, "", "input i: refusal 10\n"),
        ("standard input for two inputs", ["--input", "i=-", "--input", "j=-", two], b"1 2", 2, "", "input j: refusal 10\n"),
        ("a source of no input", ["--input", "x=-", *BY_PIPE, SUM], b"1", 2, "", "input x: refusal 11\n"),
        ("a source of an output", [*BY_PIPE, "--input", "o=-", SUM], b"1", 2, "", "input o: refusal 11\n"),
        ("no source", [SUM], b"1", 2, "", "input i: refusal 18\n"),
        ("one of two sources", ["--input", i, two], b"", 2, "", "input j: refusal 18\n"),
        ("a text of the inputs without one of them", ["--input", j, two, room / "of i.inputs"], b"", 2, "", "inputs: refusal 18\n"),
        ("two outputs", [*BY_PIPE, "examples/clock.net"], b"1", 2, "", "--stream=bare: not exactly one output\n"),
        ("no output", [*BY_PIPE, room / "none.net"], b"1", 2, "", "--stream=bare: not exactly one output\n"),
        ("a network that isn't there", [*BY_PIPE, "nowhere.net"], b"1", 1, "", "net: cannot be read\n"),
        ("inputs that aren't there", [*BY_PIPE, SUM, "nowhere.inputs"], b"1", 1, "", "inputs: cannot be read\n"),
        ("a network that is refused", [*BY_PIPE, room / "loop.net"], b"1", 2, "", "net line 4: refusal 14\n"),
        ("a network that is no text", [*BY_PIPE, room / "bytes.net"], b"1", 2, "", "net: not text\n"),
        ("inputs that are refused", [*BY_PIPE, SUM, room / "bad.inputs"], b"1", 2, "", "inputs line 1: refusal 2\n"),
        ("inputs of another network", [*BY_PIPE, SUM, room / "x.inputs"], b"1", 2, "", "inputs line 1: refusal 11\n"),
        ("two outputs and a source of no input", ["--input", "x=-", "examples/clock.net"], b"1", 2, "", "--stream=bare: not exactly one output\n"),
        ("a source of no input before two of one", ["--input", "x=-", "--input", i, "--input", i, two], b"", 2, "", "input x: refusal 11\n"),
        ("a source of no input behind two of one", ["--input", i, "--input", i, "--input", "x=-", two], b"", 2, "", "input i: refusal 10\n"),
        ("a source of no input, and inputs that aren't there", ["--input", "x=-", SUM, "nowhere.inputs"], b"", 2, "", "input x: refusal 11\n"),
        ("two files that aren't there", ["--input", "j=nowhere", "--input", "i=nowhere", two], b"", 1, "", "input j: cannot be read\n"),
        ("a folder behind items of the text", ["--input", "i=examples", SUM, room / "i.inputs"], b"", 1, "5\n", "input i: cannot be read\n"),
        ("a file that isn't there behind items of the text", ["--input", "i=nowhere", SUM, room / "i.inputs"], b"", 1, "", "input i: cannot be read\n"),
        # a pipe that nobody has open would hold who opens it
        ("a source that isn't opened, of a network that is refused", ["--input", f"i={room / 'unwritten'}", room / "loop.net"], b"", 2, "", "net line 4: refusal 14\n"),
        ("a source that isn't opened, beside inputs that are refused", ["--input", f"i={room / 'unwritten'}", SUM, room / "bad.inputs"], b"", 2, "",
         "inputs line 1: refusal 2\n"),
    ]
    for name, words, given, status, out, told in rows:
        checks.comes(f"{BARE}: {name}", run([BARE, *words], given=given, seconds=ENDS), status, out, told)
    checks.comes("--stream: no output", run(["--stream", *BY_PIPE, room / "none.net"], given=b"1 2"), 0, "", COMPLETE)
    checks.comes("--stream: three outputs", run(["--stream", *BY_PIPE, "examples/clock.net"], given=b"7384"), 0,
                 re.compile(r"\A(?=(?:.*\n)*hours 2$)(?=(?:.*\n)*minutes 3$)(?=(?:.*\n)*seconds 4$)(?:.*\n){3}\Z", re.MULTILINE), COMPLETE)
    rest = Answer(["bash", "-c", '"$@" && cat', "-", program, BARE, "--input", i, SUM], given=b"of another\n")
    checks.comes(f"{BARE}: standard input stays where no source is it", rest, 0, "1\n3\n6\nof another\n", COMPLETE)


def check_stream_words(checks, run):
    """Command lines with --stream that are refused, and help."""
    error = re.compile(r"\Aerror: .*^For more information, try '--help'\.\n\Z", re.MULTILINE | re.DOTALL)
    for words in ([], ["--script", "examples/two_nodes.script"], ["--state", "nowhere"], ["--sync"], ["--rounds", "5"], ["--items", "5"], ["--approx", "5"], ["--plain"],
                  ["--history", "/dev/null"], ["--quiet"], ["--room", "63"], ["--room", "57345"], ["--input"], ["--input", "i"], ["--input", "=-"], ["--input", "i="],
                  ["--explain", "--explain"], ["--binary", "--binary"], ["--binary=yes"], ["--stream"], [BARE], ["--stream=lines"]):
        asked = ["--stream", *words, *([SUM, ITEMS] if words else [])]
        checks.comes(f"refused: {' '.join(asked)}", run(asked), 2, "", error)
    checks.comes("refused: a third text", run(["--stream", SUM, ITEMS, "more"]), 2, "", error)
    checks.comes("refused: --input without --stream", run([*BY_PIPE, SUM, ITEMS]), 2, "", error)
    checks.comes("refused: --binary without --stream", run(["--binary", SUM, ITEMS]), 2, "", error)
    for words in (["--stream", "--binary"], ["--binary", "--stream"], ["--stream", "--binary", "--", BARE]):
        checks.comes(f"refused: {' '.join(words)}", run([*words[:2], *BY_PIPE, *words[2:], SUM]), 2, "",
                     re.compile(r"\Aerror: --binary .*--stream=bare .*^Usage: ", re.MULTILINE | re.DOTALL))
    checks.comes("--stream behind -- is a name", run(["--", "--stream", ITEMS]), 1, "", "net: cannot be read\n")
    rows = [r"^Usage: .*--stream", "--stream", "--input <NAME=FILE>", "--binary", "--room <N>", "--explain", *(rf"^ +{number}  \w" for number in (0, 2, 1))]
    checks.comes("help: --stream --help", run(["--stream", "--help"]), 2, re.compile(r"\A.*" + ".*".join(rows), re.MULTILINE | re.DOTALL))


def shell_line(words, program):
    """What a line of the shell comes to, in which $K is the program: it has some seconds and some memory, since it may go on without end."""
    return Answer(["bash", "-c", f'ulimit -v 2000000; K="timeout {ENDS} $0"; {words}', program])


def check_pipes(checks, program):
    """Pipes of the shell, before the run and behind it."""
    rows = [
        ("a thousand items and their last sum", f"seq 1000 | $K {BARE} --input i=- {SUM} | tail -1", 0, "500500\n", COMPLETE),
        ("a writer that is gone on with", f"(seq 3; sleep 0.1; seq 4 5) | $K --stream --input i=- {SUM}", 0, "o 1\no 3\no 6\no 10\no 15\n", COMPLETE),
        ("two runs in a row", f"seq 4 | $K {BARE} --input i=- {SUM} | $K {BARE} --input i=- {SUM}", 0, "1\n4\n10\n20\n", COMPLETE * 2),
        ("a reader that is satisfied", f"yes 1 | $K {BARE} --input i=- {SUM} | head -3; echo ${{PIPESTATUS[1]}}", 0, "1\n2\n3\n1\n", UNWRITTEN),
        ("a reader that is satisfied, by a network on two nodes", f"yes 1 | $K --stream --input i=- examples/two_nodes.net | head -2; echo ${{PIPESTATUS[1]}}", 0,
         "o 1\no 2\n1\n", UNWRITTEN),
        ("a network without end", "$K --stream examples/counter.net | head -3; echo ${PIPESTATUS[0]}", 0, "o 0\no 1\no 2\n1\n", UNWRITTEN),
    ]
    two_inputs = "kahn 1; input i; input j; output o; process p on 0 { var v; loop { v = get i; put v to o; v = get j; put v to o; } }"
    rows += [("two pipes", f"$K --stream --input i=<(seq 3) --input j=<(seq 10 10 40) <(echo '{two_inputs}')", 0, "o 1\no 10\no 2\no 20\no 3\no 30\n", COMPLETE),
             ("a slow pipe and a quick one", f"$K {BARE} --input i=<(sleep 0.1; seq 2) --input j=<(seq 9) <(echo '{two_inputs}')", 0, "1\n1\n2\n2\n", COMPLETE),
             ("no channel at all", "$K --stream <(echo 'kahn 1;')", 0, "", COMPLETE),
             ("standard input by its name", f"seq 3 | $K {BARE} --input i=/dev/stdin {SUM}", 0, "1\n3\n6\n", COMPLETE),
             ("no standard input", f"$K {BARE} --input i=- {SUM} <&-", 1, "", "input i: cannot be read\n"),
             ("no standard output", f"seq 3 | $K {BARE} --input i=- {SUM} >&-", 1, "", UNWRITTEN)]
    if os.path.exists("/dev/full"):
        rows += [("the end can't be told", f"seq 2 | $K {BARE} --input i=- {SUM} 2> /dev/full", 0, "1\n3\n", ""),
                 ("a bad item can't be told", f"echo 2 x | $K {BARE} --input i=- {SUM} 2> /dev/full", 1, "2\n", "")]
        rows += [("a full device", f"seq 3 | $K {BARE} --input i=- {SUM} > /dev/full", 1, "", UNWRITTEN),
                 ("a full device, and a bad item that is never read", f"(echo 1; sleep 0.1; echo x) | $K --stream --input i=- {SUM} > /dev/full", 1, "", UNWRITTEN),
                 ("a full device, and nothing to write", f"$K {BARE} --input i=/dev/null {SUM} > /dev/full", 0, "", COMPLETE)]
    for name, words, status, out, told in rows:
        checks.comes(f"--stream in a pipe: {name}", shell_line(words, program), status, out, told)


class Fed:
    """A run that is fed by hand, by a pipe or by a terminal, and whose lines are read as they come."""

    def __init__(self, command, terminal=None):
        stdin = subprocess.PIPE if terminal is None else terminal
        self.running = subprocess.Popen(command, cwd=TOP, bufsize=0, stdin=stdin, stdout=subprocess.PIPE, stderr=subprocess.PIPE)
        self.limit = threading.Timer(ENDS, self.running.kill)       # where a line doesn't come
        self.limit.start()

    def give(self, text):
        with contextlib.suppress(BrokenPipeError):
            self.running.stdin.write(text)

    def line(self):
        return self.running.stdout.readline().decode()

    def some(self, count):
        """So many bytes that it writes, or fewer where it ends."""
        came = b""
        while len(came) < count and (more := self.running.stdout.read(count - len(came))):
            came += more
        return came

    def end(self):
        """What came of it behind the lines that were read, once no more is given."""
        if self.running.stdin:
            self.running.stdin.close()
        rest, told = self.running.stdout.read().decode(), self.running.stderr.read().decode()
        status = self.running.wait()
        self.limit.cancel()
        return status, rest, told


def balances(items):
    """What the tutorial's account comes to: each amount is added, and then a tenth of all."""
    held = 0
    for item in items:
        held += item
        held += held // 10
        yield held


def processor_ticks(process):
    """The processor time that a process has taken, in hundredths of a second."""
    return sum(map(int, pathlib.Path(f"/proc/{process}/stat").read_text().rpartition(")")[2].split()[11:13]))


TALKS = 50
ENDED = (0, "", COMPLETE)


def account_of(room):
    """The tutorial's account over three nodes, whose channels form a ring."""
    path = room / "account.net"
    path.write_text(dict(blocks(TUTORIAL))["tutorial/account.net"])
    return path


def check_fed(checks, program, room):
    """Items that come one by one: each is answered before the next one is there."""
    fed = Fed([program, BARE, *BY_PIPE, SUM])
    lines = []
    for part, answers in ((b"1", 0), (b"2\n3 -", 1), (b"4", 0), (b"\n", 2)):
        fed.give(part)
        lines += [fed.line() for _ in range(answers)] or [time.sleep(0.05)]
    came = [line for line in lines if line], fed.end()
    checks.note("--stream: items in ragged pieces", None if came == (["12\n", "15\n", "11\n"], ENDED) else str(came))
    items = range(1, TALKS + 1)
    account = account_of(room)
    for name, words, wanted in (
            ("the running sum", [BARE, *BY_PIPE, SUM], [f"{number}\n" for number in itertools.accumulate(items)]),
            ("two nodes", ["--stream", *BY_PIPE, "examples/two_nodes.net"], [f"o {number}\n" for number in itertools.accumulate(items)]),
            ("a ring over three nodes", ["--stream", "--input", "paid=-", account], [f"balance {number}\n" for number in balances(items)])):
        fed, lines = Fed([program, *words]), []
        for item in items:
            fed.give(f"{item}\n".encode())
            lines.append(fed.line())
        ended = fed.end()
        checks.note(f"--stream: there and back, {name}", None if (lines, ended) == (wanted, ENDED) else f"{lines}, {ended}")
    fed = Fed([program, BARE, *BY_PIPE, "examples/two_nodes.net"])
    fed.give(b"1\n")
    fed.line()
    before = processor_ticks(fed.running.pid)
    time.sleep(0.3)
    took = processor_ticks(fed.running.pid) - before
    ended = fed.end()
    checks.note("--stream: a run that waits for an item sleeps", None if took <= 2 and ended == ENDED else f"{took} ticks, {ended}")
    if has_terminals(checks):
        here, there = pty.openpty()
        fed, lines = Fed([program, BARE, *BY_PIPE, SUM], there), []
        for text in (b"5\n", b"6 7\n"):
            os.write(here, text)
            lines.append(fed.line())
        os.write(here, b"\x04")         # its end
        came = lines, fed.end()
        os.close(there)
        os.close(here)
        checks.note("--stream: items that are typed", None if came == (["5\n", "11\n"], (0, "18\n", COMPLETE)) else str(came))


def items_by_output(text):
    """The items of each output, of lines as `o 1`; nothing where a line is another."""
    found = {}
    for line in text.splitlines(keepends=True):
        name, _, item = line.partition(" ")
        if not re.fullmatch(r"\w+", name) or not re.fullmatch(r"-?\d+\n", item):
            return None
        found.setdefault(name, []).append(int(item))
    return found


def check_same_streams(checks, name, answer, wanted):
    """That these streams left, and that all came to its end. Of an output by which nothing left there is no line."""
    wanted = {output: items for output, items in wanted.items() if items}
    right = items_by_output(answer.out) == wanted and answer.status == 0 and answer.err == COMPLETE
    checks.note(name, None if right else f"{answer.told()}; to leave had {str(wanted)[:200]}")


def items_of_inputs(path):
    """The items of each input of a text, as they stand there."""
    return {line.partition(":")[0]: line.partition(":")[2].split() for line in path.read_text().splitlines() if ":" in line and not line.startswith("#")}


def source_words(items, room, dice):
    """The words that take the items of each input from a file, between which all may stand that may."""
    words = []
    for name, its in items.items():
        path = room / name
        path.write_text("".join(f"{item}{dice.choice([' ', chr(10), chr(9), '  ', chr(13) + chr(10)])}" for item in its))
        words += ["--input", f"{name}={path}"]
    return words


STREAMED = 20               # networks by chance
LONG = 40_000               # items: longer than several pieces of a file, so that numbers are cut at their borders


def check_same_networks(checks, run, room, seed):
    """Networks on items of files: the examples, beside their own texts; long inputs; and networks by chance, beside what a plain interpreter makes of them."""
    dice = random.Random(seed)
    for path in sorted(EXAMPLES.glob("*.net")):
        text, wanted = expected_streams(path.stem)
        if text.endswith("complete\n"):
            wanted = {name: [int(item) for item in items] for name, items in wanted.items()}
            words = source_words(items_of_inputs(path.with_suffix(".inputs")), new_folder(room, path.stem), dice)
            check_same_streams(checks, f"--stream: examples/{path.stem}", run(["--stream", *words, path]), wanted)
            check_same_streams(checks, f"--stream: examples/{path.stem} by its inputs", run(["--stream", path, path.with_suffix(".inputs")]), wanted)
    first, second = range(1, LONG + 1), [dice.randint(-10**9, 10**9) for _ in range(LONG // 2)]
    (room / "two.net").write_text(TWO_INPUTS)
    long = [("two inputs of which one is longer", room / "two.net", {"i": first, "j": second}, {"o": [one + other for one, other in zip(first, second)]}),
            ("two nodes", EXAMPLES / "two_nodes.net", {"i": second}, {"o": list(itertools.accumulate(second))}),
            ("a ring over three nodes", account_of(room), {"paid": first[:100]}, {"balance": list(balances(first[:100]))})]
    for name, net, items, wanted in long:
        check_same_streams(checks, f"--stream: {name}", run(["--stream", *source_words(items, room, dice), net]), wanted)
    checks.say(f"streams: seed {seed}")
    for number, network in enumerate(random_networks.networks(seed, STREAMED)[0]):
        own = new_folder(room, f"random-{number}")
        (own / "net").write_text(network.text)
        items, words = network.inputs, []
        if number % 2:                  # their beginnings stand in the text of the inputs
            cut = {name: dice.randint(0, len(its)) for name, its in items.items()}
            (own / "inputs").write_text("".join(f"{name}: {' '.join(map(str, its[:cut[name]]))}\n" for name, its in items.items()))
            items, words = {name: its[cut[name]:] for name, its in items.items()}, [own / "inputs"]
        answer = run(["--stream", *source_words(items, own, dice), own / "net", *words])
        check_same_streams(checks, f"--stream: network {number} by chance, seed {seed}", answer, network.report())


# Items as bytes.
