"""The same where items are bytes, where memory is missing, and in which order inputs are read."""

import itertools
import os
import random
import shlex
import time

from looks.answers import new_folder, refuse_memory, COMPLETE, ENDS, EXAMPLES, MOST_REFUSED, SUM
from looks.streams import (
    check_coming,
    check_fed,
    check_pipes,
    check_same_networks,
    check_sources,
    check_stream_words,
    Fed,
    shell_line,
    BARE,
    BY_PIPE,
    ENDED,
    GREATEST,
    LEAST,
    TWO_INPUTS,
)
from looks.users_files import differing_names, Home

BINARY = [BARE, "--binary"]
COPY = "kahn 1; input i; output o; process p on 0 { var v; loop { v = get i; put v to o; } }\n"


def wrapped(number):
    """The item that a sum or a difference is, in 64 bits."""
    return (number - LEAST) % 2**64 + LEAST


def packed(items):
    """Items as bytes: eight each, two's complement, the least significant first."""
    return b"".join(item.to_bytes(8, "little", signed=True) for item in items)


def running_sums(items):
    return itertools.accumulate(items, lambda one, other: wrapped(one + other))


# What comes as bytes to the running sum, the sums by hand, and what is told of bytes that end within an item.
COMING_BINARY = {
    "three items": (packed([1, 2, 3]), [1, 3, 6], None),
    "nothing": (b"", [], None),
    "an item byte by byte": (bytes([1, 2, 3, 4, 5, 6, 7, 8]), [0x0807060504030201], None),
    "the least and the greatest item": (packed([LEAST, GREATEST]), [LEAST, -1], None),
    "the greatest item and one more": (packed([GREATEST, 1]), [GREATEST, LEAST], None),
    "the byte of a sign": (bytes([0] * 7 + [128]), [LEAST], None),
    "all bits": (b"\xff" * 8, [-1], None),
    "what would be text": (b"1\n2\n3\n4\n", [int.from_bytes(b"1\n2\n3\n4\n", "little")], None),
    "one byte": (b"\x07", [], "item 1: refusal 30"),
    "a line feed behind an item": (packed([5]) + b"\n", [5], "item 2: refusal 30"),
    "an item without its last byte": (packed([1, 2]) + packed([3])[:7], [1, 3], "item 3: refusal 30"),
    # longer than what is read at once
    "an item more than is read at once": (packed([1] * 8193), range(1, 8194), None),
    "many items, and a byte": (packed([1] * 20_000) + b"\0", range(1, 20_001), "item 20001: refusal 30"),
}


def comes_packed(checks, name, answer, status, items, told):
    """That these items came as bytes, and this on standard error."""
    right = answer.status == status and answer.bytes == packed(items) and answer.err == told
    checks.note(name, None if right else f"{answer.told()}; {len(answer.bytes)} bytes")


def check_coming_bytes(checks, run):
    """What comes by a pipe to the running sum as bytes, and what leaves and is told then."""
    for name, (given, sums, fault) in COMING_BINARY.items():
        answer = run([*BINARY, *BY_PIPE, SUM], given=given)
        comes_packed(checks, f"--binary: {name}", answer, 2 if fault else 0, sums, f"input i {fault}\n" if fault else COMPLETE)


def check_ragged_bytes(checks, program):
    """Bytes that come in pieces: an item is answered as soon as it is whole, and not before."""
    fed, came = Fed([program, *BINARY, *BY_PIPE, SUM]), []
    given = packed([LEAST, 7, -3, GREATEST, 258, -259])
    place = 0
    for length in (3, 5, 9, 6, 1, 15, 7, 2):
        fed.give(given[place:place + length])
        came.append(fed.some(8 * ((place + length) // 8 - place // 8)) or time.sleep(0.05) or b"")
        place += length
    status, rest, told = fed.end()
    right = (b"".join(came), status, rest, told) == (packed(running_sums([LEAST, 7, -3, GREATEST, 258, -259])), *ENDED)
    checks.note("--binary: items in ragged pieces", None if right else f"{came}, {status}, {rest!r}, {told!r}")


def check_binary(checks, program, run, room, seed):
    """Runs on items as bytes, beside what Python makes of the same items."""
    check_coming_bytes(checks, run)
    check_ragged_bytes(checks, program)
    dice = random.Random(seed)
    powers = [sign * 2**power + more for power in range(64) for sign in (1, -1) for more in (-1, 0, 1)]
    some = [item for item in powers if LEAST <= item <= GREATEST] + [dice.randint(LEAST, GREATEST) for _ in range(20_000)]
    others = [dice.randint(LEAST, GREATEST) for _ in range(9_000)]
    for name, text in {"copy.net": COPY, "two.net": TWO_INPUTS, "i.inputs": "i: 5 -6\n"}.items():
        (room / name).write_text(text)
    (room / "some").write_bytes(packed(some))
    (room / "others").write_bytes(packed(others))
    (room / "cut").write_bytes(packed(others[:3]) + b"123")
    i = ["--input", f"i={room / 'some'}"]
    rows = [
        ("a file", [*i, room / "copy.net"], None, 0, some, COMPLETE),
        ("a pipe", [*BY_PIPE, room / "copy.net"], packed(some), 0, some, COMPLETE),
        ("two nodes", [*i, "examples/two_nodes.net"], None, 0, running_sums(some), COMPLETE),
        ("two files", [*i, "--input", f"j={room / 'others'}", room / "two.net"], None, 0, [wrapped(one + other) for one, other in zip(some, others)], COMPLETE),
        ("a file and a pipe", ["--input", "j=-", *i, room / "two.net"], packed(others), 0, [wrapped(one + other) for one, other in zip(some, others)], COMPLETE),
        ("items behind those of the text of the inputs", [*BY_PIPE, SUM, room / "i.inputs"], packed([4]), 0, [5, -1, 3], COMPLETE),
        ("the text of the inputs alone", [SUM, room / "i.inputs"], b"", 0, [5, -1], COMPLETE),
        ("a file that is cut, with another input at its end", [*i, "--input", f"j={room / 'cut'}", room / "two.net"], None, 2,
         [wrapped(one + other) for one, other in zip(some, others[:3])], "input j item 4: refusal 30\n"),
        ("a folder", ["--input", "i=examples", SUM], None, 1, [], "input i: cannot be read\n"),
    ]
    for name, words, given, status, items, told in rows:
        comes_packed(checks, f"--binary: {name}", run([*BINARY, *words], given=given, seconds=ENDS), status, items, told)
    again = shell_line(f"$K {shlex.join(map(str, [*BINARY, *i, room / 'copy.net']))} | $K {shlex.join(map(str, [*BINARY, *BY_PIPE, room / 'copy.net']))}", program)
    comes_packed(checks, "--binary: two runs in a row", again, 0, some, COMPLETE * 2)


def check_stream_memory(checks, program, room):
    """Each request for memory refused in turn of a run with --stream: what it had printed by then is right, and so is what it tells."""
    (room / "eights").write_bytes(packed([1, 2, 3]))
    own, items = new_folder(room, "refused"), room / "three"
    items.write_text((" " * 70_000).join(["1\n", "2\n", "3\n"]))      # each comes by itself, since what is read at once is shorter
    library, net = refuse_memory.refuser(own), EXAMPLES / "two_nodes.net"
    refuse_each(checks, [program, "--stream", "--input", f"i={items}", net], library, own, "--stream", b"o 1\no 3\no 6\n", True)
    refuse_each(checks, [program, *BINARY, "--input", f"i={room / 'eights'}", net], library, own, "--binary", packed([1, 3, 6]), False)


def refuse_each(checks, command, library, own, mark, whole, has_pieces):
    """Each request for memory of this command refused in turn."""
    others, refused, in_between = [], 0, 0
    for number in range(1, MOST_REFUSED):
        ended = refuse_memory.run(command, library, own, number)
        if ended.met < number:
            break
        refused += 1
        in_between += ended.status == 1 and ended.out != b""
        no_memory = ended.status == 1 and whole.startswith(ended.out) and ended.err == b"no memory\n"
        is_whole = ended.status == 0 and ended.out == whole and ended.err in (b"", COMPLETE.encode())
        if not no_memory and not is_whole:
            others.append(f"request {number}: {ended.told()}")
    checks.note(f"{mark}, each request for memory refused", "; ".join(others[:5]))
    is_enough = refused > 100 and (in_between or not has_pieces)
    checks.note(f"{mark}, requests were refused", None if is_enough else f"{refused} requests, {in_between} behind an item that left")
    checks.say(f"memory: {mark}: {refused} requests, each of which was refused once, {in_between} of them behind an item that left")


# Two items of one input are put out one by one, and then one of the other, which is declared first.
IN_TURNS = "kahn 1; input j; input i; output o; process p on 0 { var v; loop { v = get i; put v to o; v = get i; put v to o; v = get j; put v to o; } }\n"


def check_demand(checks, program, room):
    """An input is read where a process waits for it: what comes by the others doesn't hold it up."""
    net, pipe = room / "in_turns.net", room / "pipe"
    net.write_text(IN_TURNS)
    os.mkfifo(pipe)
    other = os.open(pipe, os.O_RDWR)        # so that nobody waits to open it
    fed, lines = Fed([program, BARE, "--input", f"j={pipe}", *BY_PIPE, net]), []
    for item in (1, 2):
        fed.give(b"%d\n" % item)
        lines.append(fed.line())
    os.write(other, b"3\n")
    lines.append(fed.line())
    fed.give(b"4\n")
    lines.append(fed.line())
    os.close(other)
    came = lines, fed.end()
    checks.note("--stream: an input that nobody waits for isn't waited for", None if came == (["1\n", "2\n", "3\n", "4\n"], ENDED) else str(came))


def check_streams(checks, program, run, room, seed):
    """Networks on items that come while they run."""
    home = Home(run, room, "user")
    home.write("items", b"1 2 3\n")
    before = home.stands()
    checks.comes("--stream of files", home.runner([BARE, "--input", "i=items", "a.net"], cwd=home.path), 0, "1\n3\n6\n", COMPLETE)
    checks.note("--stream of files: what stands then", differing_names(before, home.stands()))
    check_coming(checks, run)
    check_sources(checks, program, run, room)
    check_stream_words(checks, run)
    check_pipes(checks, program)
    check_fed(checks, program, room)
    check_demand(checks, program, new_folder(room, "demand"))
    check_same_networks(checks, run, new_folder(room, "same"), seed)
    check_stream_memory(checks, program, room)
    check_binary(checks, program, run, new_folder(room, "binary"), seed)


# A tree that can't be written, and a launcher called from elsewhere.
