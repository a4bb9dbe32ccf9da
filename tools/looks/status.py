"""What is told of a folder by --status."""

import errno
import itertools
import os
import re
import shutil
import subprocess
import time

from looks.answers import file_calls, new_folder, refuse_memory, ENDS, ITEMS, MOST_REFUSED, SUM, TOP
from looks.refusals import full_answer
from looks.syncs import TWO_OUTPUTS
from looks.users_files import content_of, differing_names, Home, LONG_ITEMS, LOOKS

# What a folder of the running sum holds, what is told of it with --status, and the status; of a refusal the line, and what --explain adds.
HELD_SUMS = {
    "a whole run": ({"o.items": b"1\n3\n6\n"}, ["input i: 3 of 3 got", "output o: 3 kept", "complete"], 0),
    "a run that was ended early": ({"o.items": b"1\n3\n"}, ["input i: 3 of 3 got", "output o: 2 kept", "partial"], 3),
    "a run that never began": ({"o.items": b""}, ["input i: 0 of 3 got", "output o: 0 kept", "partial"], 3),
    "a line that was cut off": ({"o.items": b"1\n3"}, ["input i: 2 of 3 got", "output o: 1 kept, and a line that was cut off", "partial"], 3),
    "a line that was cut off behind all items": ({"o.items": b"1\n3\n6\n1"}, ["input i: 3 of 3 got", "output o: 3 kept, and a line that was cut off", "complete"], 0),
    "no item to come": ({"inputs": b"i:\n", "o.items": b""}, ["input i: 0 of 0 got", "output o: 0 kept", "complete"], 0),
    "an item that differs": ({"o.items": b"1\n4\n6\n"}, "state: refusal 81", "mine/o.items: line 2 is 4, but the item of this run is 3"),
    "an item too many": ({"o.items": b"1\n3\n6\n10\n"}, "state: refusal 81", "mine/o.items: line 4 is 10, but a run has no more items"),
    "a line that is no item's": ({"o.items": b"1\n03\n6\n"}, "state: refusal 80", "mine/o.items: line 2 is not an item"),
    "no file of an output": ({"o.items": None}, "state: refusal 80", f"mine/o.items: No such file or directory (os error {errno.ENOENT})"),
    "no text of a network": ({"net": None}, "state: refusal 80", f"mine/net: No such file or directory (os error {errno.ENOENT})"),
    "no text of inputs": ({"inputs": None}, "state: refusal 80", f"mine/inputs: No such file or directory (os error {errno.ENOENT})"),
    "a text that is no network's": ({"net": b"kahn 1;\n!\n"}, "state: refusal 80", "mine/net: line 2: bad token"),
    "a text of other inputs": ({"inputs": b"j: 1\n"}, "state: refusal 80", "mine/inputs: line 1: unknown name"),
    "a text that isn't UTF-8": ({"net": b"kahn 1;\xff"}, "state: refusal 80", "mine/net: not UTF-8"),
}

# Two outputs, whose files may end at different places; processes that go round without an item; and such as let many items lie between them.
HELD_APART = """kahn 1; input i; input never; chan c; output same; output total;
process pass on 0 { var v; loop { v = get i; put v to c; put v to same; } }
process sum on 1 { var a; var v; loop { v = get c; a = a + v; put a to total; } }
process none on 0 { var v; v = get never; }
"""
GOES_ROUND = "kahn 1; output o; chan x; process p on 0 { var v; put 7 to o; put 1 to x; loop { v = get x; put v to x; } }\n"
WANTS_ROOM = """kahn 2; input i; chan c; chan d; output o; output late;
process many on 0 { var v; v = get i; repeat 1000 { repeat 15 { put v to c; } } put v to d; put v to late; }
process few on 1 { var v; v = get d; repeat 1000 { repeat 15 { v = get c; } } put v to o; }
"""


def held_lines(processes, nodes, channels, lines):
    """What is told of a folder."""
    return "".join(f"{line}\n" for line in [f"processes: {processes}", f"nodes: {nodes}", f"channels: {channels}", *lines])


class HeldFolder:
    """A folder as a run has it, whose status is asked for, and which stays as it is."""

    def __init__(self, checks, run, room):
        self.checks, self.runner, self.home = checks, run, new_folder(room, "held")
        self.path = self.home / "mine"

    def make(self, files):
        shutil.rmtree(self.path, ignore_errors=True)
        self.path.mkdir()
        for name, content in files.items():
            if content is not None:
                (self.path / name).write_bytes(content)

    def stands(self):
        return {str(path.relative_to(self.home)): content_of(path) for path in sorted(self.home.rglob("*"))}

    def tells(self, name, status, out, err="", words=("--status", "mine")):
        before = self.stands()
        self.checks.comes(f"--status: {name}", self.runner(list(words), cwd=self.home), status, out, err)
        self.checks.note(f"--status: {name}: what stands then", differing_names(before, self.stands()))


def check_held(checks, run, room):
    """What is told of folders of the running sum, and which ones are refused."""
    held = HeldFolder(checks, run, room)
    texts = {"net": (TOP / SUM).read_bytes(), "inputs": b"i: 1 2 3\n", "lock": b""}
    for name, (files, told, more) in HELD_SUMS.items():
        held.make(texts | files)
        if isinstance(told, list):
            held.tells(name, more, held_lines(1, 1, 2, told))
        else:
            held.tells(name, 1, "", f"{told}\n")
            held.tells(f"{name}, with --explain", 1, "", f"{told}\n{more}\n", ["--explain", "--status=mine"])
    held.make(texts | {"o.items": None})
    (held.path / "o.items").mkdir()
    held.tells("a folder in the place of a file", 1, "", "state: refusal 82\n")
    shutil.rmtree(held.path)
    held.tells("a folder that isn't there", 1, "", "state: refusal 80\n")
    held.make({"letter": b"mine"})
    held.tells("a folder of something else", 1, "", "state: refusal 80\n")
    shutil.rmtree(held.path)
    held.path.write_bytes(b"a file")
    held.tells("a file", 1, "", "state: refusal 80\n")
    held.path.unlink()
    return held


def check_held_apart(checks, held):
    """Outputs whose files end at different places; one that goes round without an item; and items that wait for room between two processes."""
    items, sums = range(1, 2001), list(itertools.accumulate(range(1, 2001)))
    texts = {"net": HELD_APART.encode(), "inputs": f"never:\ni: {' '.join(map(str, items))}\n".encode()}

    def made(same, total):
        held.make(texts | {"same.items": "".join(f"{item}\n" for item in items[:same]).encode(),
                           "total.items": "".join(f"{item}\n" for item in total).encode()})

    # (a process has got one item more than it put: it stands at its next put)
    for same, total, got, ending in ((700, 500, 701, "partial"), (10, 700, 11, "partial"), (2000, 1999, 2000, "partial"), (2000, 2000, 2000, "complete")):
        made(same, sums[:total])
        told = held_lines(3, 2, 5, [f"input i: {got} of 2000 got", "input never: 0 of 0 got", f"output same: {same} kept", f"output total: {total} kept", ending])
        held.tells(f"{same} items of an output and {total} of another", 0 if ending == "complete" else 3, told)
    made(10, [*sums[:650], 0, *sums[651:700]])
    held.tells("an item that differs behind the other output's end", 1, "", f"state: refusal 81\nmine/total.items: line 651 is 0, but the item of this run is {sums[650]}\n",
               ["--status", "mine", "--explain"])
    held.make({"net": GOES_ROUND.encode(), "inputs": b"", "o.items": b"7\n"})
    held.tells("processes that go round without an item", 3, held_lines(1, 1, 2, ["output o: 1 kept", "unsettled"]))
    held.make({"net": GOES_ROUND.encode(), "inputs": b"", "o.items": b"7\n8\n"})
    held.tells("an item that never comes", 3, held_lines(1, 1, 2, ["output o: 2 kept, 1 compared", "unsettled"]))
    held.make({"net": WANTS_ROOM.encode(), "inputs": b"i: 5\n", "o.items": b"5\n", "late.items": b"5\n"})
    held.tells("15,000 items that wait between two processes", 0, held_lines(2, 2, 5, ["input i: 1 of 1 got", "output o: 1 kept", "output late: 1 kept", "complete"]))


def check_status_words(checks, held):
    """Command lines with --status: what is asked for, and what is refused."""
    usage, error = re.compile(r"\Aerror: .*^Usage: kahnrun ", re.MULTILINE | re.DOTALL), re.compile(r"\Aerror: ")
    held.make({"net": (TOP / SUM).read_bytes(), "inputs": b"i: 1 2 3\n", "o.items": b"1\n3\n6\n"})
    whole = held_lines(1, 1, 2, HELD_SUMS["a whole run"][1])
    for words in (["--status", "mine/"], ["--status=mine"], ["--explain", "--status", "mine"], ["--status", "mine", "--"]):
        held.tells(f"{' '.join(words)}", 0, whole, "", words)
    for words in (["--status", "mine", "more"], ["--status", "mine", "--status", "mine"], ["--status", "mine", "--explain", "--explain"]):
        held.tells(f"refused: {' '.join(words)}", 2, "", usage, words)
    for words in (["--status"], ["--status", "mine", "--plain"], ["--status", "mine", "--state", "mine"], ["--stream", "--status", "mine"]):
        held.tells(f"refused: {' '.join(words)}", 2, "", error, words)
    held.tells("help", 2, re.compile(r"\A.*^Usage: kahnrun .*--status <FOLDER>.*--explain.*^  80  \w.*^  81  \w.*^  82  \w.*^   0  \w.*^   3  \w.*^   2  \w.*^   1  \w",
                                     re.MULTILINE | re.DOTALL), "", ["--status", "mine", "--help"])
    held.tells("the version", 2, re.compile(r"\Akahnrun \d"), "", ["--status", "mine", "--version"])
    held.tells("a file of this name as a network", 1, "", "net: cannot be read\n", ["--", "--status", "mine"])


def check_status_while_at_work(checks, run, program, room):
    """While a run is at work its status is told, of items that the files have by then; the run isn't disturbed, and can be killed and go on."""
    home = Home(run, room, "looked_at")
    home.write("a.net", TWO_OUTPUTS.encode())
    home.write("a.inputs", f"i: {' '.join(map(str, LONG_ITEMS))}\n".encode())
    files = [home.path / f"mine/{name}.items" for name in ("same", "total")]

    def counts():
        return [path.read_bytes().count(b"\n") if path.exists() else 0 for path in files]

    at_work = subprocess.Popen([program, "--state", "mine", "--rounds", "1000000", "a.net", "a.inputs"], cwd=home.path, stdin=subprocess.DEVNULL,
                               stdout=subprocess.DEVNULL, stderr=subprocess.PIPE)
    looked, faults = 0, []
    while not (home.path / "mine").exists() and at_work.poll() is None:
        time.sleep(0.001)
    while looked < LOOKS and at_work.poll() is None:
        before = counts()
        answer = run(["--status", "mine"], cwd=home.path, seconds=ENDS)
        after, told = counts(), [int(count) for count in re.findall(r"^output \w+: (\d+) kept", answer.out, re.MULTILINE)]
        looked += 1
        if answer.status not in (0, 3) or len(told) != 2 or not all(first <= count <= last for first, count, last in zip(before, told, after)):
            faults.append(f"{before}, {answer.told()}, {after}")
    at_work.kill()
    told = at_work.communicate()[1]
    checks.note("--status of a run at work", "; ".join(faults[:2]) or (None if looked else "the run was over"))
    checks.note("--status of a run at work: the run", None if told == b"" else repr(told[:300]))
    same, total = counts()
    answer = run(["--status", "mine"], cwd=home.path)
    torn = [", and a line that was cut off" if path.read_bytes()[-1:] not in (b"", b"\n") else "" for path in files]
    whole = same == total == len(LONG_ITEMS)
    lines = re.escape(f"output same: {same} kept{torn[0]}\noutput total: {total} kept{torn[1]}\n{'complete' if whole else 'partial'}\n")
    checks.comes("--status of a run that was killed", answer, 0 if whole else 3, re.compile(rf"\Aprocesses: 2\nnodes: 2\nchannels: 4\ninput i: \d+ of {len(LONG_ITEMS)} got\n{lines}\Z"))
    checks.comes("a run goes on whose status was told", home.run("--state", "mine", "--rounds", "1000000", "--items", "1"), 3, re.compile(r"\Asame: 1\ntotal: 1\npartial\n\Z"))


def check_status_calls(checks, program, room):
    """With --status the program reads the folder's files, and asks nothing else of them; each request for memory may be refused."""
    home = Home(None, room, "read_only")
    for name, content in (("net", (TOP / SUM).read_bytes()), ("inputs", (TOP / ITEMS).read_bytes()), ("o.items", b"1\n3")):
        home.write(f"mine/{name}", content)
    before = home.stands()
    ran, calls = file_calls.run([program, "--status", home.path / "mine"], file_calls.noter(room), home.path, room / "status.log")
    asked = [call for call in calls if call.name != "open" or set("".join(call.more)) & set("wctx")]
    checks.note("--status: what is asked of files", "; ".join(map(str, asked)) or (None if ran.returncode == 3 else f"status {ran.returncode}"))
    own = new_folder(room, "status-refused")
    library, whole, others, refused = refuse_memory.refuser(own), ran.stdout, [], 0
    for number in range(1, MOST_REFUSED):
        ended = refuse_memory.run([program, "--status", home.path / "mine"], library, own, number)
        if ended.met < number:
            break
        refused += 1
        no_memory = ended.status == 1 and ended.out == b"" and ended.err in (b"", b"no memory\n")
        if not no_memory and (ended.status, ended.out, ended.err) != (3, whole, b""):
            others.append(f"request {number}: {ended.told()}")
    checks.note("--status, each request for memory refused", "; ".join(others[:5]))
    checks.note("--status, requests were refused", None if refused > 50 else f"{refused} requests")
    checks.note("--status: what stands then", differing_names(before, home.stands()))
    if os.path.exists("/dev/full"):
        checks.note("--status where it can't be written", None if full_answer([program, "--status", home.path / "mine"]) == 1 else "another status")


def check_status(checks, run, program, room):
    """What is told of a folder of --state: what it holds, and whether more will come."""
    held = check_held(checks, run, room)
    check_held_apart(checks, held)
    check_status_words(checks, held)
    check_status_while_at_work(checks, run, program, room)
    check_status_calls(checks, program, room)
