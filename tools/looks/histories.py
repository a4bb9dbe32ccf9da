"""The histories of runs, against their networks, their scripts and what left."""

import os
import re

from looks.answers import draw, storm, EXAMPLES, ITEMS, REPORT, SUM
from looks.documents import begins, expected_streams


def script_events(path):
    """The events of a failure script, in the words of a history."""
    lines = [line.split("#")[0].split() for line in path.read_text().splitlines()]
    events = [" ".join(words[1:]) for words in lines if words]
    return [re.sub(r"^fail (\d+) device (\d+)$", r"crash \1 device \2 0 1", event) for event in events]


MANY_ROUNDS = 60    # of a run that goes on without end
PRINTED = 40        # how many items of each output these runs print at most: with threads more may have left


def unlike_the_run(text, name, streams):
    """What of a history isn't as the example and what came of it say, or None: the network's channels and processes; the items that left,
    one after another; the script's events in order; and of each node a job that comes back behind each that is granted."""
    net, history = draw.Network((EXAMPLES / f"{name}.net").read_text()), draw.History(text)
    processes = [(process.name, process.node) for process in net.processes]
    if [it[0] for it in history.channels] != list(net.kinds) or history.processes != processes:
        return "another network"
    left, granted, driven = {}, {}, []
    for maker, words, told in re.findall(r"^(\d+|driver) (.*): (.*)$", text, re.MULTILINE):
        item = re.fullmatch(r"released (\d+) (\d+)", told)
        if item:
            left.setdefault(history.channels[int(item[1])][0], []).append(int(item[2]))
        if maker == "driver":
            driven.append(words)
        granted[maker] = granted.get(maker, 0) + (told == "granted") - words.startswith("install")
        if granted[maker] not in (0, 1) and "crashed" not in text and "down" not in text:
            return f"node {maker} has {granted[maker]} jobs out"
    for output, items in streams.items():
        numbers, printed = left.get(output, []), len(items)
        if numbers != list(range(1, len(numbers) + 1)) or len(numbers) != printed and (printed != PRINTED or len(numbers) < printed):
            return f"other items left: {left}"
    script = EXAMPLES / f"{name}.script"
    events = script_events(script) if script.exists() else []
    return None if driven == events[:len(driven)] else f"the driver made {driven}"


def check_drawn_rounds(checks, run, room):
    """The rounds that tools/draw counts in a history are those after which the run stopped."""
    file, counted = room / "rounds.history", []
    for path in sorted(EXAMPLES.glob("*.net")):
        script = ["--script", path.with_suffix(".script")] if path.with_suffix(".script").exists() else []
        for rounds in (1, 3, 6, MANY_ROUNDS):
            answer = run(["--plain", *script, "--rounds", str(rounds), "--history", file, path, path.with_suffix(".inputs")])
            if answer.status == 3:
                counted.append(rounds)
                found = draw.Chart(draw.History(file.read_text())).round
                checks.note(f"{rounds} rounds of {path.stem} as they are drawn", None if found == rounds else f"{found} rounds")
    checks.note("rounds as they are drawn", None if len(counted) > 10 and MANY_ROUNDS in counted else str(counted))


class LineRounds(draw.Chart):
    """A history, and for each line of the script the round in which it came."""

    def __init__(self, history):
        self.driven, self.installed = [], set()
        super().__init__(history)

    def add(self, event):
        if event.maker == "driver":
            self.driven.append((event.words, self.round))
        if event.form.startswith("install") and event.answer == "installed":
            self.installed.add(event.numbers[1])
        super().add(event)


def script_rounds(path):
    """The rounds in which the lines of a failure script come due."""
    return [int(words[0]) for words in (line.split("#")[0].split() for line in path.read_text().splitlines()) if words]


def missing_in(text, name, late):
    """What of an example doesn't stand in the history of its run, or None: a job of each process, and each line of the script that came due
    and had more rounds than these to come."""
    chart, script = LineRounds(draw.History(text)), EXAMPLES / f"{name}.script"
    idle = [process for number, (process, _) in enumerate(chart.history.processes) if number not in chart.installed]
    due = [round for round in script_rounds(script) if round + late < chart.round] if script.exists() else []
    if idle:
        return f"no job of {' '.join(idle)}"
    return f"{len(chart.driven)} lines of the {len(due)} that came due" if len(chart.driven) < len(due) else None


def check_kept_histories(checks, run, room):
    """What `--history` writes of the examples, by turns and with threads; and where it can't be written."""
    for path in sorted(EXAMPLES.glob("*.net")):
        name, file = path.stem, room / f"{path.stem}.history"
        script = ["--script", path.with_suffix(".script")] if path.with_suffix(".script").exists() else []
        words = [*script, "--rounds", "100", "--items", str(PRINTED), "--history", file, path, path.with_suffix(".inputs")]
        texts, (_, wanted) = [], expected_streams(name)
        cyclic = bool(script) and storm.forms_cycle(storm.channels_between(path.read_text()))
        for way in (["--plain"], ["--plain"], []):
            answer = run([*way, *words])
            streams = answer.streams()
            texts.append(file.read_text() if file.exists() else "")
            kind = f"the history of {name}{' by turns' if way else ' with threads'}"
            fault = answer.told() if streams is None or answer.err else unlike_the_run(texts[-1], name, streams) or missing_in(texts[-1], name, 0 if way else 1)
            checks.note(kind, fault)
            if way or not cyclic:
                checks.note(f"{kind}, all that left", None if begins(wanted, streams) else f"{streams}")
        checks.note(f"the history of {name} is the same by turns", None if texts[0] == texts[1] else "two texts")
    words, told = [SUM, ITEMS], "history: cannot be written\n"
    for where in (room / "nowhere" / "a.history", room):
        checks.comes(f"--history {where}", run(["--history", where, *words]), 1, "", told)
    if os.path.exists("/dev/full"):
        checks.comes("--history /dev/full", run(["--history", "/dev/full", *words]), 1, "", told)
    untouched = room / "untouched.history"
    checks.comes("--history and --approx", run(["--history", untouched, "--approx", "9", *words]), 0, REPORT)
    checks.note("--history and --approx, the file", "it is there" if untouched.exists() else None)
    kept = room / "with_history"
    for items in (["1", "3", "6"], []):     # the second run goes on behind what left in the first
        checks.comes("--history and --state", run(["--history", untouched, "--state", kept, *words]), 0, REPORT)
        checks.note("--history and --state, the file", unlike_the_run(untouched.read_text(), "running_sum", {"o": items}))


# A node that sends in lots, and one that waits for the end of a lot before it takes the items: with little room the world stands still again and
# again, and channels get more.
LOTS = """kahn 2; input paid; chan item; chan lot; output left;
process collect on 0 { var v; loop { repeat 250 { v = get paid; put v to item; } put 1 to lot; } }
process settle on 1 { var v; loop { v = get lot; repeat 250 { v = get item; put v to left; } } }
"""
LOTS_SCRIPT = "0 lose 0 1 2\n1 crash 1 now 7 2\n2 lose 1 0 1\n4 crash 0 now 0 1\n"


def check_one_run(checks, run, room):
    """A run by turns is the same, to the byte, whether its history is kept or not."""
    net, paid, script = room / "lots.net", room / "lots.inputs", room / "lots.script"
    net.write_text(LOTS)
    paid.write_text(f"paid: {' '.join(map(str, range(1, 2501)))}\n")
    script.write_text(LOTS_SCRIPT)
    runs = [(f"lots, {rounds} rounds", ["--room", "64", "--rounds", str(rounds), "--script", script, net, paid]) for rounds in range(1, 41)]
    for path in sorted(EXAMPLES.glob("*.net")):
        words = ["--script", path.with_suffix(".script")] if path.with_suffix(".script").exists() else []
        for rounds in (1, 2, 4, 7, MANY_ROUNDS):
            runs.append((f"{path.stem}, {rounds} rounds", ["--rounds", str(rounds), *words, path, path.with_suffix(".inputs")]))
    lengths = set()
    for name, words in runs:
        without, kept = run(["--plain", *words]), run(["--plain", "--history", room / "one_run.history", *words])
        lengths.add(len(without.out))
        same = without.out and without.status == kept.status and without.out == kept.out and not without.err and not kept.err
        checks.note(f"one run, with a history and without: {name}", None if same else f"{without.told()} and {kept.told()}")
    checks.note("one run, with a history and without", None if len(lengths) > 20 else f"{len(lengths)} different reports")
