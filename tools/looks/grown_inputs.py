"""A folder whose inputs have grown, and one whose inputs are others."""

import shutil

from looks.answers import file_calls
from looks.syncs import unsynced_before, PUTS, SYNCS
from looks.users_files import check_as_before, differing_names, Home

# A merge of two inputs by turns, which takes an item of each.
BY_TURNS = b"kahn 1; input i; input j; output o;\nprocess p on 0 { var v; loop { v = get i; put v to o; v = get j; put v to o; } }\n"

# Texts of inputs for it one after the other, each with what the merge releases and whether a run goes on where the folder has the one before.
GROWING = [
    ("the first items", b"i: 1 2\nj:\n", [1], None),
    ("items for an input that had none", b"i: 1 2\nj: 7\n", [1, 7, 2], 1),
    ("items for both inputs", b"i: 1 2 3\nj: 7 8 9\n", [1, 7, 2, 8, 3, 9], 3),
    ("the same items in other words", b"# the same\n\nj: 7  8 9 \r\ni: 1 2 3\n", [1, 7, 2, 8, 3, 9], 6),
    ("the same text", b"# the same\n\nj: 7  8 9 \r\ni: 1 2 3\n", [1, 7, 2, 8, 3, 9], 6),
    ("an item for one of them", b"i: 1 2 3 -4\nj: 7 8 9\n", [1, 7, 2, 8, 3, 9, -4], 6),
]

# Texts that have not grown from the last of them.
NOT_GROWN = {
    "a changed item": b"i: 1 2 5 -4\nj: 7 8 9\n",
    "a changed item, and more": b"i: 1 2 5 -4 6\nj: 7 8 9 10\n",
    "an item less": b"i: 1 2 3\nj: 7 8 9\n",
    "an item less of one, and one more of the other": b"i: 1 2 3 -4 5\nj: 7 8\n",
    "no items": b"i:\nj:\n",
    "items in front": b"i: 0 1 2 3 -4\nj: 7 8 9\n",
    "the inputs' items in each other's place": b"j: 1 2 3 -4\ni: 7 8 9\n",
}

# What the folder may have in the place of its text of inputs, from which nothing grows.
NO_INPUTS = {"nothing": b"", "another network's": b"k: 1\n", "no text": b"# \xff\ni: 1 2 3 -4\nj: 7 8 9\n", "no items": b"i: 1 x\nj: 7\n", "one line alone": b"i: 1 2\n"}


def check_grown(checks, run, program, room):
    """A run goes on where items were added at the end of its inputs' lists. Any other change of them is another run."""
    home = Home(run, room, "grown")
    home.write("a.net", BY_TURNS)
    home.write("other.net", BY_TURNS + b"\n")
    for way in (["--plain"], []):
        folder = f"kept{len(way)}"
        for name, text, items, behind in GROWING:
            kind = f"--state {' '.join(way)}, {name}"
            home.write("a.inputs", text)
            report = f"o:{''.join(f' {item}' for item in items)}\ncomplete\n"
            told = f"went on behind item {behind} of o\n" if behind else ""
            checks.comes(kind, home.run(*way, "--explain", "--state", folder), 0, report, told)
            checks.comes(f"{kind}: a fresh run", home.run(*way), 0, report)
            made = {"net": BY_TURNS, "inputs": text, "o.items": "".join(f"{item}\n" for item in items).encode(), "lock": b""}
            found = {path.name: path.read_bytes() for path in (home.path / folder).iterdir()}
            checks.note(f"{kind}: what the folder has", differing_names(made, found))
    last = GROWING[-1][1]
    for name, text in NOT_GROWN.items():
        home.write("b.inputs", text)
        check_as_before(checks, f"--state, {name}", home, ["--state", "kept0"], 1, "state: refusal 80\n", inputs="b.inputs")
    for name, text in NO_INPUTS.items():
        home.write("kept0/inputs", text)
        check_as_before(checks, f"--state, where the text of inputs is {name}", home, ["--state", "kept0"], 1, "state: refusal 80\n")
    home.write("kept0/inputs", b"i: 1 2\nj: 7\n")
    check_as_before(checks, "--state, more inputs and another network", home, ["--state", "kept0"], 1, "state: refusal 80\n", net="other.net")
    check_texts_left(checks, home, last)
    check_growing_calls(checks, program, room)


def check_texts_left(checks, home, text):
    """A text that a run which was killed left beside the folder's stays, and disturbs neither a run nor what is told of the folder."""
    report = "o: 1 7 2 8 3 9 -4\ncomplete\n"
    home.write("kept0/inputs.making", b"i: 1")
    before = home.stands()
    checks.comes("--state beside a text that was left", home.run("--state", "kept0"), 0, report)
    checks.note("a text that was left stays", differing_names(before | {"kept0/inputs": text}, home.stands()))
    told = home.runner(["--status", "kept0"], cwd=home.path)
    checks.comes("--status beside a text that was left", told, 0, "processes: 1\nnodes: 1\nchannels: 3\ninput i: 4 of 4 got\ninput j: 3 of 3 got\noutput o: 7 kept\ncomplete\n")
    home.write("kept0/inputs", b"i: 1 2\nj: 7\n")
    for nth in range(1, 100):
        home.write(f"kept0/inputs.making.{nth}")
    words = ["--explain", "--state", "kept0"]
    line = "kept0/inputs.making: too many files of this name are left\n"
    check_as_before(checks, "--state where each name for a text is taken", home, words, 1, f"state: refusal 82\n{line}")


def check_growing_calls(checks, program, room):
    """What a run whose inputs have grown asks of the files of its folder: the text is whole, and with --sync on the disk, before it has its name,
    and has it before an item is put. A sync that fails ends the run, and the next one goes on."""
    place = room / "growing_calls"
    place.mkdir()
    net, inputs, home, log, library = place / "a.net", place / "a.inputs", place / "home", place / "log", file_calls.noter(place)
    net.write_bytes(BY_TURNS)
    (_, first, _, _), (_, second, items, _) = GROWING[0], GROWING[2]

    def runs(text, *words, fail=0):
        inputs.write_bytes(text)
        return file_calls.run([program, "--plain", *words, "--state", home / "sums", net, inputs], library, home, log, fail)

    def begin():
        shutil.rmtree(home, ignore_errors=True)
        home.mkdir()
        runs(first)

    for words in ([], ["--sync"]):
        kind = " ".join(["grown inputs", *words])
        begin()
        ran, calls = runs(second, *words)
        renamed = [place for place, call in enumerate(calls) if call.name == "rename" and call.more == ["sums/inputs"]]
        put = next((place for place, call in enumerate(calls) if call.name in PUTS and call.file == "sums/o.items"), 0)
        fine = ran.returncode == 0 and len(renamed) == 1 and renamed[0] < put and not file_calls.broken_rules(calls)
        checks.note(f"{kind}: the calls", None if fine else f"{str(ran)[-200:]}, {calls[:40]}, {file_calls.broken_rules(calls)}")
        if words and fine:
            checks.note(f"{kind}: the text is synced before it has its name", unsynced_before(calls, renamed[0], ["sums/inputs.making"]))
            names = [".", "sums", "sums/net", "sums/inputs", "sums/o.items"]
            checks.note(f"{kind}: what stands then is synced before it is used", unsynced_before(calls[renamed[0] + 1:], put - renamed[0] - 1, names))
    others, syncs = [], sum(call.name in SYNCS for call in calls)
    for number in range(1, syncs + 1):
        begin()
        failed, _ = runs(second, "--sync", fail=number)
        text = (home / "sums/inputs").read_bytes()
        left = [path.name for path in (home / "sums").glob("inputs.*")]
        again, _ = runs(second, "--sync")
        fine = failed.returncode == 1 and text in (first, second) and not left and again.returncode == 0
        fine = fine and (home / "sums/inputs").read_bytes() == second and (home / "sums/o.items").read_text().split() == list(map(str, items))
        others += [] if fine else [f"sync {number}: {str(failed)[-200:]}, {left}; then {str(again)[-200:]}"]
    checks.note("grown inputs: each sync fails in turn", "; ".join(others[:3]) or (None if syncs > 5 else f"{syncs} syncs"))
