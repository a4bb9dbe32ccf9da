"""A folder of --state: what it holds, how a run goes on with it, and why it is refused; and the storms."""

import fcntl
import re
import subprocess

from looks.answers import EXAMPLES, ITEMS, KILLS, REPORT, STORM, SUM, TOP
from looks.refusals import COUNTER


def check_storm(checks, program, seed):
    checks.say(f"storm: seed {seed}")
    command = [TOP / "tools/storm", "--seed", str(seed), "--count", str(STORM), program]
    ran = subprocess.run(command, stdin=subprocess.DEVNULL, capture_output=True, text=True)
    lines = ran.stdout.splitlines()
    right = ran.returncode == 0 and lines and lines[-1].endswith(" 0 finds") and f"{STORM} runs" in lines[-2]
    checks.note(f"the storm of seed {seed}", None if right else f"status {ran.returncode}\n{ran.stdout}{ran.stderr}")
    checks.say("storm: " + "; ".join(lines[-2:]))


# How many items a chain of two nodes has, of which a run is ended early, and by how many rounds.
GONE_ON_ITEMS = 5000
GONE_ON_ROUNDS = 20


COUNTED_ITEMS = 20_000


def check_goes_on(checks, run, room):
    """A run over a folder goes on behind what left before it: its history tells of no item that the folder had."""
    net, items = room / "goes_on.net", room / "goes_on.inputs"
    net.write_text((EXAMPLES / "two_nodes.net").read_text())
    items.write_text(f"i: {' '.join(map(str, range(1, GONE_ON_ITEMS + 1)))}\n")
    sums, total = [], 0
    for number in range(1, GONE_ON_ITEMS + 1):
        total += number
        sums.append(total)
    for way in (["--plain"], []):
        folder, kind = room / f"goes_on{len(way)}", "by turns" if way else "with threads"
        command = [*way, "--state", folder, net, items]
        first = run(["--rounds", str(GONE_ON_ROUNDS), *command])
        held = len((folder / "o.items").read_text().split()) if first.status == 3 else 0
        checks.note(f"a run {kind} is ended early", None if 0 < held < GONE_ON_ITEMS else first.told())
        checks.note(f"a first run {kind} doesn't go on", first.told() if first.err else None)
        file = room / "goes_on.history"
        again = run(["--explain", "--rounds", "10000", "--history", file, *command])
        checks.comes(f"a run {kind} goes on", again, 0, f"o: {' '.join(map(str, sums))}\ncomplete\n", f"went on behind item {held:,} of o\n")
        told = [int(number) for number in re.findall(r": released \d+ (\d+)$", file.read_text(), re.MULTILINE)]
        fault = None if told == list(range(held + 1, GONE_ON_ITEMS + 1)) else f"it had {held} items, and {len(told)} from {told[:1]} on are told of"
        checks.note(f"a run {kind} goes on behind what left", fault)
        quiet = run(command)
        checks.comes(f"a run {kind} that has all goes on, and isn't asked", quiet, 0, again.out)
        checks.note(f"a run {kind} goes on, its file", None if (folder / "o.items").read_text().split() == list(map(str, sums)) else "other items")
        check_counted(checks, run, room, way, kind)
    check_default_rounds(checks, run, room)


def check_counted(checks, run, room, way, kind):
    """A run that has as many items as are asked for ends at once. (With threads some items may leave before it is asked.)"""
    net, items, folder = room / "counted.net", room / "counted.inputs", room / f"counted{len(way)}"
    net.write_text(COUNTER)
    items.write_text("")
    command = [*way, "--items", str(COUNTED_ITEMS), "--state", folder, net, items]
    counted = []
    for time in ("first", "second"):
        ran = run(command)
        checks.note(f"a {time} run {kind} of so many items", None if ran.status == 3 else ran.told())
        counted.append(len((folder / "o.items").read_text().split()))
    fault = None if COUNTED_ITEMS <= counted[0] <= counted[1] < counted[0] + COUNTED_ITEMS // 2 else f"{counted[0]}, and then {counted[1]}"
    checks.note(f"a run {kind} that has the items asked for ends", fault)


# A circle over two nodes, in which a token takes a round or more for each item.
CIRCLE = """kahn 1; input i; chan there; chan back; output o;
process first on 0 { var v; var k; v = get i; put v to there; loop { k = get back; put k to o; put k + 1 to there; } }
process second on 1 { var k; loop { k = get there; put k to back; } }
"""


def check_default_rounds(checks, run, room):
    """Where no rounds are asked for a run has 1,000, and with a folder a million."""
    net, items = room / "circle.net", room / "circle.inputs"
    net.write_text(CIRCLE)
    items.write_text("i: 1\n")
    command = ["--plain", "--explain", "--items", "2000", net, items]
    checks.comes("a run without a folder has 1,000 rounds", run(command), 3, re.compile(r"\Ao: 1 2 3 [^\n]*\npartial\n\Z"), "partial: 1,000 rounds are over, the default of --rounds\n")
    kept = run(["--state", room / "circle", *command])
    whole = f"o: {' '.join(map(str, range(1, 2001)))}\npartial\n"
    checks.comes("a run with a folder has more", kept, 3, whole, "partial: the items asked for have left: --items 2000\n")


def check_kill_storm(checks, program, seed):
    """Runs that keep what left in a folder are killed, started again and misled."""
    ran = subprocess.run([TOP / "tools/kill_storm", "--seed", str(seed), "--kills", str(KILLS), program], stdin=subprocess.DEVNULL, capture_output=True, text=True)
    lines = ran.stdout.splitlines()
    right = ran.returncode == 0 and lines and lines[-1].endswith(" 0 finds")
    checks.note(f"the storm by kill of seed {seed}", None if right else f"status {ran.returncode}\n{ran.stdout}{ran.stderr}")
    checks.say("storm by kill: " + "; ".join(lines[-1:]))


def check_state(checks, run, room):
    """A folder that outlasts a run: what it holds, and why it is refused."""
    folder, files = room / "sums", lambda: {path.name: path.read_bytes() for path in sorted((room / "sums").iterdir())}
    words = ["--state", folder, SUM, ITEMS]
    checks.comes("--state: a first run", run(words), 0, REPORT)
    made = {"inputs": (TOP / ITEMS).read_bytes(), "lock": b"", "net": (TOP / SUM).read_bytes(), "o.items": b"1\n3\n6\n"}
    checks.note("--state: what the folder has", None if files() == made else str(files()))
    checks.comes("--state: a second run", run(["--plain", *words]), 0, REPORT)
    checks.note("--state: what it has then", None if files() == made else str(files()))
    for name, content, number in (("o.items", b"1\n4\n", 81), ("o.items", b"1\n3\n6\n7", None), ("o.items", b"1\n03\n", 80), ("net", b"kahn 1;\n", 80)):
        (folder / name).write_bytes(content)
        answer = run(words)
        if number is None:
            checks.comes("--state: a line that was cut off", answer, 0, REPORT)
            checks.note("--state: it is taken off", None if files() == made else str(files()))
        else:
            checks.comes(f"--state: {name} of {content!r}", answer, 1, "", f"state: refusal {number}\n")
            checks.note(f"--state: {name} of {content!r} stays", None if (folder / name).read_bytes() == content else str(files()))
        (folder / name).write_bytes(made[name])
    checks.comes("--state: of another network", run(["--state", folder, "examples/two_nodes.net", "examples/two_nodes.inputs"]), 1, "", "state: refusal 80\n")
    with (folder / "lock").open() as lock:
        fcntl.flock(lock, fcntl.LOCK_EX)
        checks.comes("--state: in use", run(words), 1, "", "state: in use\n")
    (room / "other").mkdir()
    (room / "other/thing").touch()
    checks.comes("--state: a folder of something else", run(["--state", room / "other", SUM, ITEMS]), 1, "", "state: refusal 80\n")
    checks.comes("--state: a folder in a file", run(["--state", TOP / SUM / "x", SUM, ITEMS]), 1, "", re.compile(r"\Astate: refusal 8[02]\n\Z"))
    checks.comes("--state with --approx", run(["--state", room / "none", "--approx", "9", SUM, ITEMS]), 0, REPORT)
    checks.note("--state with --approx makes nothing", "it is there" if (room / "none").exists() else None)
