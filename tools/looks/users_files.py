"""The files, folders and devices that a user has beside a run."""

import concurrent.futures
import errno
import fcntl
import os
import pathlib
import re
import time

from looks.answers import Answer, ENDS, ITEMS, REPORT, SUM, TOP
from looks.histories import unlike_the_run
from looks.syncs import MANY, TWO_OUTPUTS

# A run that takes some tenths of a second, and puts several blocks of each of its outputs meanwhile.
LONG_ITEMS = range(1, 60_001)
LOOKS = 20                  # so often at most the status of a run at work is asked for
RUNS_AT_WORK = 6            # at most so many runs are looked at while they are at work
SECOND_OF_LOCK = 0.7    # a lock is waited for for a second; less is too little, however long the rest took
PAIRS = 20
USERS = b"a file of the user's own\n"


class Home:
    """A folder of a user's own, in which runs are made, and all that stands there."""

    def __init__(self, run, room, name):
        self.path, self.runner = room / name, run
        self.path.mkdir()
        self.write("a.net", (TOP / SUM).read_bytes())
        self.write("a.inputs", (TOP / ITEMS).read_bytes())

    def write(self, name, content=USERS):
        path = self.path / name
        path.parent.mkdir(exist_ok=True)
        path.write_bytes(content)

    def run(self, *words, net="a.net", inputs="a.inputs", **more):
        return self.runner([*words, net, inputs], cwd=self.path, **more)

    def stands(self):
        """What stands under each name: a file's bytes, where a link leads, or that it is a folder or something else."""
        return {str(path.relative_to(self.path)): content_of(path) for path in sorted(self.path.rglob("*"))}


def content_of(path):
    if path.is_symlink():
        return f"a link to {os.readlink(path)}"
    if path.is_file():
        return path.read_bytes()
    return "a folder" if path.is_dir() else "something else"


def differing_names(wanted, found):
    """The names under which something else stands than has to, if any does."""
    names = [name for name in sorted(wanted.keys() | found.keys()) if wanted.get(name) != found.get(name)]
    return ", ".join(f"{name}: {found.get(name)!r:.80} and not {wanted.get(name)!r:.80}" for name in names) or None


def folder_of_sum(name):
    """What a folder of a run of the running sum holds, by its name."""
    files = {"net": (TOP / SUM).read_bytes(), "inputs": (TOP / ITEMS).read_bytes(), "o.items": b"1\n3\n6\n", "lock": b""}
    return {name: "a folder"} | {f"{name}/{file}": content for file, content in files.items()}


def check_as_before(checks, name, home, words, status, told, made=None, **more):
    """A run that comes to this, behind which all stands as before, and besides it what was made."""
    before = home.stands()
    checks.comes(name, home.run(*words, seconds=ENDS, **more), status, REPORT if status == 0 else "", told)
    checks.note(f"{name}: what stands then", differing_names(before | (made or {}), home.stands()))


def check_taken_names(checks, run, room):
    """A folder of --state whose name, or that under which it is made, is the user's."""
    home = Home(run, room, "taken_names")
    home.write("mine/letter")
    home.write("mine.making/letter")
    home.write("free.making/letter")
    home.write("file")
    (home.path / "empty").mkdir()
    check_as_before(checks, "--state of a user's folder", home, ["--state", "mine"], 1, "state: refusal 80\n")
    check_as_before(checks, "--state beside a user's folder", home, ["--state", "free"], 0, "", folder_of_sum("free"))
    check_as_before(checks, "--state beside a user's folder, once more", home, ["--state", "free"], 0, "")
    check_as_before(checks, "--state in no folder", home, ["--state", "a/b"], 1, "state: refusal 82\n")
    check_as_before(checks, "--state of a file", home, ["--state", "file"], 1, "state: refusal 80\n")
    check_as_before(checks, "--state of a file with a slash", home, ["--state", "file/"], 1, "state: refusal 80\n")
    check_as_before(checks, "--state with a slash", home, ["--state", "new/"], 0, "", folder_of_sum("new"))
    check_as_before(checks, "--state with and without a slash", home, ["--state", "new"], 0, "")
    check_as_before(checks, "--state of an empty folder", home, ["--state", "empty"], 0, "", folder_of_sum("empty"))


def check_users_names(checks, run, room):
    """The names under which a history and a folder are made are the user's: the next ones are taken, and what is the user's stays."""
    home = Home(run, room, "users_names")
    for name in ("h.new", "h.new.1"):
        home.write(name)
    for name in ("kept.making/letter", "kept.making.1/letter"):
        home.write(name)
    before = home.stands()
    checks.comes("--state and --history beside what is the user's", home.run("--plain", "--state", "kept", "--history", "h"), 0, REPORT)
    history = home.path / "h"
    text = history.read_text() if history.is_file() else ""
    checks.note("--history beside what is the user's", unlike_the_run(text, "running_sum", {"o": ["1", "3", "6"]}) if text else "it isn't there")
    checks.note("what is the user's then", differing_names(before | folder_of_sum("kept") | {"h": text.encode()}, home.stands()))
    (home.path / "kept/o.items").write_bytes(b"1\n4\n")
    check_as_before(checks, "--history of a run that fails", home, ["--state", "kept", "--history", "g"], 1, "state: refusal 81\n")
    home.write("none/letter")
    for nth in range(100):
        home.write(f"none.making{f'.{nth}' if nth else ''}/letter")
    (home.path / "none/letter").unlink()
    told = "none.making: too many folders of this name are left\n"
    check_as_before(checks, "--state where each name is the user's", home, ["--explain", "--state", "none"], 1, f"state: refusal 82\n{told}")


def check_texts_stay(checks, run, room):
    """A file of --history that is a text of the run, by whatever name, or stands in the folder of --state."""
    home, told = Home(run, room, "texts_stay"), "history: cannot be written\n"
    home.write("a.script", b"# nothing fails\n")
    (home.path / "link.net").symlink_to("a.net")
    (home.path / "here").symlink_to(".")
    checks.comes("--state: a first run", home.run("--state", "kept"), 0, REPORT)
    (home.path / "link").symlink_to("kept")
    names = ("a.net", "./a.net", "link.net", "here/a.net", str(home.path / "a.net"), "a.inputs", "here/a.inputs", "a.script", "./a.script")
    for name in names:
        check_as_before(checks, f"--history {name}", home, ["--script", "a.script", "--history", name], 1, told)
    for net in ("link.net", "here/a.net"):
        check_as_before(checks, f"--history a.net, of {net}", home, ["--history", "a.net"], 1, told, net=net)
    for name in ("kept/o.items", "kept/net", "kept/lock", "kept/more", "link/more", "here/kept/o.items"):
        check_as_before(checks, f"--state kept --history {name}", home, ["--state", "kept", "--history", name], 1, told)
    for words in (["--state", "new", "--history", "new"], ["--state", "new", "--history", "new/more"]):
        check_as_before(checks, " ".join(words), home, words, 1, told)


def check_refused_texts(checks, run, room):
    """Texts that are refused or missing: nothing is made, a history that is there stays, and the texts behind aren't opened."""
    home = Home(run, room, "refused_texts")
    home.write("old")
    home.write("bad.net", b"kahn 1;\noutput o\n")
    home.write("bad.inputs", b"i: x\n")
    home.write("bad.script", b"0 start 1\n")
    home.write("good.script", b"0 start 0\n")
    os.mkfifo(home.path / "pipe")
    refused = [
        ({"net": "nowhere"}, [], 1, "net: cannot be read\n"),
        ({"net": "bad.net"}, [], 2, "net line 3: refusal 3\n"),
        ({"inputs": "nowhere"}, [], 1, "inputs: cannot be read\n"),
        ({"inputs": "bad.inputs"}, [], 2, "inputs line 1: refusal 2\n"),
        ({}, ["--script", "nowhere"], 1, "script: cannot be read\n"),
        ({}, ["--script", "bad.script"], 2, "script line 1: refusal 71\n"),
        ({"net": "bad.net", "inputs": "pipe"}, [], 2, "net line 3: refusal 3\n"),
        ({"inputs": "bad.inputs"}, ["--script", "pipe"], 2, "inputs line 1: refusal 2\n"),
    ]
    for texts, words, status, told in refused:
        for asked in (["--history", "old"], ["--state", "new"], ["--state", "new", "--history", "old"]):
            check_as_before(checks, f"{asked}, and {told[:-1]}, by {texts} {words}", home, [*asked, *words], status, told, **texts)
    checks.comes("texts that are corrected", home.run("--state", "new", "--history", "old", "--script", "good.script"), 0, REPORT)
    text = (home.path / "old").read_text()
    fine = text.startswith("history 2\n") and "\ndriver start 0: started\n" in text
    checks.note("--state, --script and --history: what the script says happens", None if fine else text[:300])


def check_devices(checks, run, command, room):
    """Histories and reports that go to what is no file, or to nothing."""
    home, told, items = Home(run, room, "devices"), "history: cannot be written\n", {"o": ["1", "3", "6"]}
    answer = home.run("--history", "/dev/stdout")
    history = answer.out.removesuffix(REPORT)
    fine = answer.status == 0 and not answer.err and history != answer.out and not unlike_the_run(history, "running_sum", items)
    checks.note("--history /dev/stdout", None if fine else answer.told())
    check_as_before(checks, "--history /dev/null", home, ["--history", "/dev/null"], 0, "")
    checks.note("--history /dev/null: it is a device", None if pathlib.Path("/dev/null").is_char_device() else "it is none")
    check_as_before(checks, "--history of a folder", home, ["--history", "."], 1, told)
    home.write("old")
    (home.path / "link").symlink_to("old")
    check_as_before(checks, "--history of a link to a file", home, ["--history", "link"], 1, told)
    (home.path / "link").unlink()
    (home.path / "link").symlink_to("/dev/null")
    check_as_before(checks, "--history of a link to a device", home, ["--history", "link"], 0, "")
    if not os.path.exists("/dev/full"):
        checks.say("left out: a history and a report that can't be written, since the host has no /dev/full")
        return
    check_as_before(checks, "--history /dev/full", home, ["--history", "/dev/full"], 1, told)
    full = ["sh", "-c", '"$@" > /dev/full', "sh", *command]
    checks.comes("a report that can't be written", Answer([*full, SUM, ITEMS]), 1, "")
    checks.comes("a report that can't be written, with --explain", Answer([*full, "--explain", SUM, ITEMS]), 1, "", re.compile(r"\Astandard output: [^\n]+\n\Z"))


def check_explained_files(checks, run, command, room):
    """What --explain says behind the line of a file: its name, and why."""
    home = Home(run, room, "explained_files")
    home.write("mine/letter")
    home.write("other.inputs", b"# two lines\ni: 1 2 4\n")
    home.run("--state", "kept")
    rows = [
        ([], {"net": "nowhere"}, "net: cannot be read", r"nowhere: [^\n]*No such file[^\n]*"),
        (["--state", "mine"], {}, "state: refusal 80", r"mine[^\n]*net[^\n]*"),
        (["--state", "kept"], {"inputs": "other.inputs"}, "state: refusal 80", r"kept/inputs: line 1 [^\n]*"),
        (["--state", "a/b"], {}, "state: refusal 82", r"a/b[^\n]*No such file[^\n]*"),
        (["--history", "a/b"], {}, "history: cannot be written", r"a/b[^\n]*No such file[^\n]*"),
        (["--history", "mine"], {}, "history: cannot be written", r"mine is a folder"),
        (["--history", "a.net"], {}, "history: cannot be written", r"[^\n]*a\.net is a text of the run"),
    ]
    for words, texts, line, why in rows:
        answer = home.run("--explain", *words, **texts)
        checks.comes(f"--explain of {line}, {words} {texts}", answer, 1, "", re.compile(rf"\A{line}\n{why}\n\Z"))
    (home.path / "kept/o.items").write_bytes(b"1\nx\n")
    answer = home.run("--explain", "--state", "kept")
    checks.comes("--explain of a line that is no item", answer, 1, "", re.compile(r"\Astate: refusal 80\nkept/o\.items: line 2 [^\n]*\n\Z"))
    (home.path / "kept/o.items").write_bytes(b"1\n-4\n")
    answer = home.run("--explain", "--state", "kept")
    checks.comes("--explain of an item that differs", answer, 1, "", "state: refusal 81\nkept/o.items: line 2 is -4, but the item of this run is 3\n")
    home.write("many.net", MANY.encode())
    home.write("none.inputs", b"")
    many = {"net": "many.net", "inputs": "none.inputs"}
    # (a block of this limit has 512 bytes, or 1,024: the first block of items is put, and the file never holds all of them)
    limited = ["sh", "-c", 'trap "" XFSZ; ulimit -f 20; exec "$@"', "sh", *command, "--explain", "--state", "many", *many.values()]
    answer = Answer(limited, cwd=home.path)
    checks.comes("--explain of a put that fails", answer, 1, "", re.compile(rf"\Astate: refusal 82\nmany/o\.items: [^\n]*\(os error {errno.EFBIG}\)\n\Z"))
    checks.comes("behind a put that failed", home.run("--state", "many", **many), 0, "o:" + " 1" * 20_000 + "\ncomplete\n")
    with (home.path / "kept/lock").open() as lock:
        fcntl.flock(lock, fcntl.LOCK_EX)
        began = time.monotonic()
        answer = home.run("--explain", "--state", "kept")
        took = time.monotonic() - began
    checks.comes("--explain of a folder in use", answer, 1, "", re.compile(r"\Astate: in use\n[^\n]*kept\n\Z"))
    checks.note("a lock that is held is waited for for a second", None if SECOND_OF_LOCK < took < ENDS else f"{took:.2f} seconds")


def check_first_starts(checks, run, room):
    """Two first starts at once with one new folder; and a lock that another process lets go of soon."""
    home = Home(run, room, "first_starts")
    for nth in range(PAIRS):
        with concurrent.futures.ThreadPoolExecutor(2) as pool:
            answers = list(pool.map(lambda _: home.run("--state", f"new{nth}", seconds=ENDS), range(2)))
        for answer in answers:
            checks.comes(f"two first starts at once, pair {nth}", answer, 0, REPORT)
    wanted = {name: content for nth in range(PAIRS) for name, content in folder_of_sum(f"new{nth}").items()}
    found = {name: content for name, content in home.stands().items() if name.startswith("new")}
    checks.note("two first starts at once: what stands then", differing_names(wanted, found))
    with concurrent.futures.ThreadPoolExecutor(1) as pool, (home.path / "new0/lock").open() as lock:
        fcntl.flock(lock, fcntl.LOCK_EX)
        coming = pool.submit(home.run, "--state", "new0", seconds=ENDS)
        time.sleep(0.3)
        lock.close()
        checks.comes("a lock that is soon let go of", coming.result(), 0, REPORT)


def check_while_at_work(checks, run, room):
    """While a run is at work its folder is locked from before the first put on, and an older history stands. Where a run is over before it was
    looked at a few times, which a busy machine may bring about, another one is looked at."""
    home = Home(run, room, "at_work")
    home.write("a.net", TWO_OUTPUTS.encode())
    home.write("a.inputs", f"i: {' '.join(map(str, LONG_ITEMS))}\n".encode())
    whole = sum(len(f"{item}\n") for item in LONG_ITEMS)
    held, written, faults, told = 0, 0, [], None
    for nth in range(RUNS_AT_WORK):
        home.write("old")
        with concurrent.futures.ThreadPoolExecutor(1) as pool:
            coming = pool.submit(home.run, "--state", f"kept{nth}", "--history", "old", "--rounds", "1000000")
            while not coming.done():
                time.sleep(0.002)
                beside = list(home.path.glob("old.*"))
                old = (home.path / "old").read_bytes()
                written += bool(beside) and old == USERS
                faults += ["the older history is gone while the new one is made"] if not old or list(home.path.glob("old.*")) and old != USERS else []
                is_held, size = seen_lock(home.path / f"kept{nth}")
                held += is_held
                faults += [f"the lock is free after {size} bytes"] if not is_held and 0 < size < whole else []
            answer = coming.result()
        told = told or (None if answer.status == 0 and not answer.err else answer.told()[:300])
        if held > 3 and written > 3:
            break
    checks.note("a run at work", told)
    checks.note("a run at work: its lock and its history", "; ".join(sorted(set(faults))[:3]))
    checks.note("a run at work was looked at", None if held > 3 and written > 3 else f"{held} times its lock, {written} times its history")
    names = sorted(path.name for path in home.path.iterdir())
    wanted = ["a.inputs", "a.net", *(f"kept{before}" for before in range(nth + 1)), "old"]
    checks.note("a run at work: what stands then", None if names == wanted else str(names))
    checks.note("a run at work: its history", None if (home.path / "old").read_text().startswith("history 2\nchannel 0 i ") else "it is another text")


def seen_lock(folder):
    """Whether somebody has the lock of a folder into which something was put, and how many bytes the file of its first output has. (Before that
    the lock isn't tried, so that the run finds it free.)"""
    items = folder / "same.items"
    if not items.exists() or items.stat().st_size == 0:
        return False, 0
    with (folder / "lock").open() as lock:
        try:
            fcntl.flock(lock, fcntl.LOCK_EX | fcntl.LOCK_NB)
        except BlockingIOError:
            return True, items.stat().st_size
        return False, items.stat().st_size


def check_users_files(checks, run, command, room):
    """What a user has stays, whatever a run comes to: its texts, folders, devices and older histories."""
    check_taken_names(checks, run, room)
    check_users_names(checks, run, room)
    check_texts_stay(checks, run, room)
    check_refused_texts(checks, run, room)
    check_devices(checks, run, command, room)
    check_explained_files(checks, run, command, room)
    check_first_starts(checks, run, room)
    check_while_at_work(checks, run, room)
