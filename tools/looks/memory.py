"""Each request for memory is refused in turn."""

import shutil

from looks.answers import Answer, refuse_memory, EXAMPLES, MOST_REFUSED, REPORT


def sweep_commands(program, room):
    """What runs while its requests are refused, by name. With threads the number of requests isn't the same in each run."""
    three = room / "three.inputs"
    three.write_text("i: 1 2 3\n")
    crash = room / "crash.script"
    crash.write_text("0 crash 1 delivery 2 1 1\n")
    kahn = [EXAMPLES / "kahn_1974.net", EXAMPLES / "kahn_1974.inputs"]
    return {
        "the running sum": [program, "--plain", EXAMPLES / "running_sum.net", three],
        "Kahn's network": [program, "--plain", "--items", "4", *kahn],
        "two nodes and a crash": [program, "--plain", "--script", crash, EXAMPLES / "two_nodes.net", three],
        "the running sum with threads": [program, EXAMPLES / "running_sum.net", three],
        "two nodes and a crash with threads": [program, "--script", crash, EXAMPLES / "two_nodes.net", three],
        "the running sum with a history": [program, "--plain", "--history", room / "swept.history", EXAMPLES / "running_sum.net", three],
    }


SWEPT = {
    "the running sum": (0, b"o: 1 3 6\ncomplete\n"),
    "Kahn's network": (3, b"out: 0 1 0 1\npartial\n"),
    "two nodes and a crash": (0, b"o: 1 3 6\ncomplete\n"),
    "the running sum with threads": (0, b"o: 1 3 6\ncomplete\n"),
    "two nodes and a crash with threads": (0, b"o: 1 3 6\ncomplete\n"),
    "the running sum with a history": (0, b"o: 1 3 6\ncomplete\n"),
}


def check_memory(checks, program, jobs, room):
    for name, command in sweep_commands(program, room).items():
        sweep = refuse_memory.swept(command, most=MOST_REFUSED, jobs=jobs)
        whole = (sweep.whole.status, sweep.whole.out)
        checks.note(f"{name}, nothing refused", None if whole == SWEPT[name] and not sweep.whole.err else sweep.whole.told())
        checks.note(f"{name}, each request for memory refused", "; ".join(sweep.others[:5]))
        checks.note(f"{name}, requests were refused", None if sweep.no_memory > 0 and sweep.refused > 100 else sweep.told())
        checks.say(f"memory: {name}: {sweep.told()}")


def check_memory_with_folder(checks, program, room):
    """Each request for memory refused of a run that makes a folder: the run ends as any other, and the next one goes on with what is there."""
    folder, three, library = room / "swept", room / "folder.inputs", refuse_memory.refuser(room)
    three.write_text("i: 1 2 3\n")
    command = [program, "--plain", "--state", folder, EXAMPLES / "running_sum.net", three]
    others, refused = [], 0
    for number in range(1, MOST_REFUSED):
        shutil.rmtree(folder, ignore_errors=True)
        ended = refuse_memory.run(command, library, room, number)
        if ended.met < number:
            break
        refused += 1
        again = Answer(command)
        fine = ended.is_no_memory() or (ended.status, ended.out.decode()) == (0, REPORT)
        if not fine or (again.status, again.out) != (0, REPORT) or (folder / "o.items").read_text() != "1\n3\n6\n":
            others.append(f"request {number}: {ended.told()}; then {again.told()}")
    checks.note("with a folder, each request for memory refused", "; ".join(others[:5]))
    checks.note("with a folder, requests were refused", None if refused > 100 else f"{refused} requests")
    checks.say(f"memory: with a folder: {refused} requests, each of which was refused once")


# Two sums that don't meet. The early one has three items, which have left long before the late one has summed its own.
EARLY_AND_LATE = """kahn 1; input i; input j; output early; output late;
process first on 0 { var a; var v; loop { v = get i; a = a + v; put a to early; } }
process second on 1 { var a; var v; loop { v = get j; a = a + v; put a to late; } }
"""
LATE_ITEMS = 3000
SAMPLED = 3                 # of so many requests one is refused
FEW_PUTS = 20               # so many may be refused while files are put, and only one of two has its items


def check_left_before_a_refusal(checks, program, room):
    """What had left when a request for memory was refused stands in the folder's files: in a run that goes on, and in one that is over."""
    # The refused requests are counted in files, so no other check may have the same folder.
    own = room / "early-and-late"
    own.mkdir(exist_ok=True)
    folder, net, items, library = own / "folder", own / "net", own / "inputs", refuse_memory.refuser(own)
    net.write_text(EARLY_AND_LATE)
    items.write_text("i: 1 2 3\nj:" + " 1" * LATE_ITEMS + "\n")
    whole = {"early.items": "1\n3\n6\n", "late.items": "".join(f"{number}\n" for number in range(1, LATE_ITEMS + 1))}
    command = [program, "--plain", "--state", folder, net, items]
    others, goes_on, over = [], 0, 0
    for number in range(1, MOST_REFUSED, SAMPLED):
        shutil.rmtree(folder, ignore_errors=True)
        ended = refuse_memory.run(command, library, own, number)
        if ended.met < number:
            break
        if not ended.is_no_memory():
            continue
        held = {name: (folder / name).read_text() if (folder / name).exists() else "" for name in whole}
        if not all(whole[name].startswith(text) for name, text in held.items()):
            others.append(f"request {number}: {held['early.items']!r}")
        has_left = held["early.items"] == whole["early.items"]
        over += held == whole
        goes_on += has_left and held != whole
    checks.note("what left before a refusal begins what has to leave", "; ".join(others[:5]))
    checks.note("what left before a run was refused is kept", None if goes_on > FEW_PUTS else f"{goes_on} runs were refused with the early items in their file")
    checks.note("what left is kept where a run can't be told of", None if over > 0 else "no run was refused with all items in their files")
    checks.say(f"memory: what had left is kept: {goes_on} times while a run went on, {over} times behind it")


# README, the tutorial and the examples.
