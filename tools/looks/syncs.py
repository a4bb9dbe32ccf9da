"""Which files are synced, and what comes of each sync that fails."""

import errno
import itertools
import os
import re
import shutil

from looks.answers import file_calls

# Two outputs, each of a node of its own, whose files take several blocks.
TWO_OUTPUTS = """kahn 1;
input i; chan c; output same; output total;
process pass on 0 { var v; loop { v = get i; put v to c; put v to same; } }
process sum on 1 { var a; var v; loop { v = get c; a = a + v; put a to total; } }
"""
ITEMS_OF_BLOCKS = range(1, 5001)
BLOCK_BYTES = 8192
SYNCS = ("fsync", "fdatasync")
PUTS = ("write", "pwrite")


# 20,000 items of two bytes each.
MANY = "kahn 2; output o;\nprocess p on 0 { repeat 1000 { repeat 20 { put 1 to o; } } }\n"


class SyncedRuns:
    """Runs with a folder whose calls are noted, and what they have to come to."""

    def __init__(self, program, words, room):
        room.mkdir()
        (room / "home").mkdir()
        self.net, self.inputs, self.log, self.home = room / "a.net", room / "a.inputs", room / "log", room / "home"
        self.folder, self.library = self.home / "sums", file_calls.noter(room)
        streams = {"same": list(ITEMS_OF_BLOCKS), "total": list(itertools.accumulate(ITEMS_OF_BLOCKS))}
        self.net.write_text(TWO_OUTPUTS)
        self.inputs.write_text(f"i: {' '.join(map(str, ITEMS_OF_BLOCKS))}\n")
        self.report = "".join(f"{name}: {' '.join(map(str, items))}\n" for name, items in streams.items()) + "complete\n"
        self.texts = {f"{name}.items": "".join(f"{item}\n" for item in items) for name, items in streams.items()}
        self.command = [program, *words, "--state", self.folder]

    def run(self, sync, fail=0):
        words = ["--explain", *(["--sync"] if sync else [])]
        files = {name: self.folder / f"{name}.items" for name in ("same", "total")}
        self.held = {name: path.read_text().count("\n") if path.exists() else 0 for name, path in files.items()}
        return file_calls.run([*self.command, *words, self.net, self.inputs], self.library, self.home, self.log, fail)

    def forget(self):
        for path in self.home.iterdir():
            shutil.rmtree(path)

    def goes_on(self, told):
        """Whether just the lines were told that say where the run goes on: one output is where its file was, and none is further."""
        begun = {name: int(items.replace(",", "")) for items, name in re.findall(r"^went on behind item ([\d,]+) of (\w+)$", told, re.MULTILINE)}
        if not any(self.held.values()):
            return told == ""
        return told.count("\n") == len(begun) and any(begun.get(name) == items > 0 for name, items in self.held.items()) and all(
            items <= self.held[name] for name, items in begun.items())

    def is_whole(self, ran):
        """Whether the run printed all, and said behind which items it went on, and the files have all."""
        return (ran.returncode, ran.stdout.decode()) == (0, self.report) and self.goes_on(ran.stderr.decode()) and all(
            (self.folder / name).read_text() == text for name, text in self.texts.items())

    def is_refused(self, ran, calls):
        """Whether it ended as one does of which a sync fails, said of which file it is and why, and what is in the files is a beginning."""
        held = [(text, (self.folder / name)) for name, text in self.texts.items()]
        failed = [os.path.normpath(self.home / call.file) for call in calls if call.name in SYNCS and call.answer != "ok"]
        told = rf"\Astate: refusal 82\n{re.escape(failed[0])}: [^\n]*\(os error {errno.EIO}\)\n\Z" if len(failed) == 1 else r"\A\Z"
        return (ran.returncode, ran.stdout) == (1, b"") and re.search(told, ran.stderr.decode()) and all(
            text.startswith(path.read_text()) for text, path in held if path.exists())

    def unblocked(self, calls):
        """What is wrong with the puts of the outputs' items, if anything is: each stands behind the one before, and is no longer than a block."""
        for name, text in self.texts.items():
            puts = [tuple(map(int, call.more)) for call in calls if call.name in PUTS and call.file == f"sums/{name}"]
            ends = list(itertools.accumulate((size for _, size in puts), initial=0))
            if [at for at, _ in puts] != ends[:-1] or ends[-1] != len(text) or len(puts) < 3 or max(size for _, size in puts) > BLOCK_BYTES:
                return f"puts of {name}: {puts}"
        return None


def unsynced_before(calls, end, names):
    """Of these files the first one that isn't synced behind all that was put to it before this place of the calls."""
    for name in names:
        own = [call for call in calls[:end] if call.file == name and call.name in PUTS + SYNCS]
        if not own or own[-1].name not in SYNCS or own[-1].answer != "ok":
            return name
    return None


def unsynced_put(calls):
    """The first put of items behind which the file isn't synced before anything else is asked of it."""
    for place, call in enumerate(calls):
        if call.name in PUTS and call.file.startswith("sums/"):
            behind = next((it for it in calls[place + 1:] if it.file == call.file), None)
            if behind is None or (behind.name, behind.answer) != ("fdatasync", "ok"):
                return f"{call}, and then {behind}"
    return None


def check_syncs(checks, program, words, room):
    """With --sync each block waits for the disk, and so do the texts and the folder when it is made, and what a run finds; without it nothing
    does. A sync that fails ends the run, and the next one goes on."""
    runs, told = SyncedRuns(program, words, room), " ".join(["--sync", *words])
    names = ["net", "inputs", *runs.texts]
    ran, calls = runs.run(sync=True)
    checks.note(f"{told}: a new folder", None if runs.is_whole(ran) else str(ran)[-300:])
    checks.note(f"{told}: each put is synced", runs.unblocked(calls) or unsynced_put(calls))
    renamed = next((k for k, call in enumerate(calls) if call.name == "rename"), 0)
    put = next((k for k, call in enumerate(calls) if call.name in PUTS and call.file.startswith("sums/")), 0)
    checks.note(f"{told}: the folder is synced before it has its name", unsynced_before(calls, renamed, ["sums.making", *(f"sums.making/{it}" for it in names)]))
    checks.note(f"{told}: it is synced before it is used", unsynced_before(calls[renamed + 1:], put - renamed - 1, [".", "sums", *(f"sums/{it}" for it in names)]))
    syncs = sum(call.name in SYNCS for call in calls)
    others = []
    for number in range(1, syncs + 1):
        runs.forget()
        failed, calls = runs.run(sync=True, fail=number)
        again, _ = runs.run(sync=True)
        if not runs.is_refused(failed, calls) or not runs.is_whole(again):
            others.append(f"sync {number}: {str(failed)[-200:]}; then {str(again)[-200:]}")
    checks.note(f"{told}: each sync fails in turn", "; ".join(others[:3]))
    runs.forget()
    ran, calls = runs.run(sync=False)
    fine = runs.is_whole(ran) and not runs.unblocked(calls) and not any(call.name in SYNCS for call in calls)
    checks.note(f"{told}: without it nothing is synced", None if fine else f"{str(ran)[-200:]}, {calls[:20]}")
    ran, calls = runs.run(sync=True)
    fault = unsynced_before(calls, len(calls), [".", "sums", *(f"sums/{it}" for it in names)])
    checks.note(f"{told}: what it finds is synced", fault if runs.is_whole(ran) else str(ran)[-200:])
    checks.say(f"syncs: {told}: {syncs} syncs in a run, each of which failed once")


# What a user has beside a run.
