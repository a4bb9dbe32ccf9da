"""What runs ask of the files in a user's folder, by the rules of tools/file_calls."""

from looks.answers import file_calls, ITEMS, SUM, TOP
from looks.users_files import Home

# Calls that break a rule of what a run may ask of files, each behind some that break none.
FAIR_CALLS = ["mkdir ok mine.making", "open ok mine.making/net wcx", "write ok mine.making/net 0 5", "open ok mine.making/o.items wcx", "rename ok mine.making mine",
              "open ok mine/lock wc", "open ok mine/o.items w", "lock held mine", "pwrite ok mine/o.items 0 6"]
UNFAIR_CALLS = ["open ok h wct", "open ok h wc", "open ok a.net w", "write ok a.net 0 1", "rename ok h h.old", "rename failed mine.making mine", "unlink ok letter",
                "rmdir ok mine.making", "pwrite ok other/o.items 0 6", "ftruncate ok other/o.items 0"]


def calls_of(lines):
    return [file_calls.Call(name, answer, file, more) for name, answer, file, *more in map(str.split, lines)]


def check_rules(checks, program, words, room):
    """No run asks more of the files in a user's folder than it may, and a call that breaks a rule is found."""
    checks.note("calls that break no rule", "; ".join(file_calls.broken_rules(calls_of(FAIR_CALLS))))
    for line in UNFAIR_CALLS:
        found = file_calls.broken_rules(calls_of([*FAIR_CALLS, line]))
        checks.note(f"a call that breaks a rule: {line}", None if len(found) == 1 and found[0].startswith(line) else str(found))
    free = file_calls.broken_rules(calls_of([*FAIR_CALLS, "lock free mine", FAIR_CALLS[-1]]))
    checks.note("a put while nobody has the lock", None if len(free) == 1 else str(free))
    room.mkdir()
    library = file_calls.noter(room)
    home = Home(None, room, "home")
    for name in ("mine.making/letter", "foreign/letter", "h", "h.new"):
        home.write(name)
    home.write("a.script", b"0 start 0\n")
    texts = ["--script", home.path / "a.script", home.path / "a.net", home.path / "a.inputs"]
    state, history = ["--state", home.path / "mine"], ["--history", home.path / "h"]
    (home.path / "torn").mkdir()
    for name, content in (("net", (TOP / SUM).read_bytes()), ("inputs", (TOP / ITEMS).read_bytes()), ("o.items", b"1\n3")):
        home.write(f"torn/{name}", content)
    runs = [("from nothing", [*state, *history]), ("once more", [*state, *history]), ("with syncs", [*state, "--sync", *history]),
            ("of a line that was cut off", ["--state", home.path / "torn"]), ("of a user's folder", ["--state", home.path / "foreign", *history]),
            ("of a text as its history", ["--history", home.path / "a.net"])]
    for name, asked in runs:
        _, calls = file_calls.run([program, *words, *asked, *texts], library, home.path, room / "log")
        checks.note(f"the calls of a run {name}", "; ".join(file_calls.broken_rules(calls)) or (None if len(calls) > 2 else f"few calls: {calls}"))
