"""Files, command lines and texts that are refused, and what is told of them, and of the ends of runs."""

import os
import re
import shutil
import subprocess
import threading

from looks import answers
from looks.answers import ITEMS, REPORT, SUM, TOP


def check_files(checks, run, room):
    """Files that are missing, oddly named, or none."""
    odd = room / "a folder of spaces"
    odd.mkdir()
    shutil.copy(TOP / SUM, odd / "the running sum.net")
    shutil.copy(TOP / ITEMS, odd / "-its 'items'")
    (odd / "bytes.net").write_bytes(b"kahn 1;\xff\n")
    checks.comes("a name with spaces", run(["the running sum.net", "./-its 'items'"], cwd=odd), 0, REPORT)
    checks.comes("a name behind --", run(["--", "the running sum.net", "-its 'items'"], cwd=odd), 0, REPORT)
    checks.comes("a network that isn't there", run(["nowhere.net", ITEMS]), 1, "", "net: cannot be read\n")
    checks.comes("inputs that aren't there", run([SUM, "nowhere.inputs"]), 1, "", "inputs: cannot be read\n")
    checks.comes("a script that isn't there", run(["--script", "nowhere", SUM, ITEMS]), 1, "", "script: cannot be read\n")
    checks.comes("a folder in a network's place", run(["examples", ITEMS]), 1, "", "net: cannot be read\n")
    checks.comes("a folder in the inputs' place", run([SUM, "examples"]), 1, "", "inputs: cannot be read\n")
    checks.comes("a folder in a script's place", run(["--script", "examples", SUM, ITEMS]), 1, "", "script: cannot be read\n")
    checks.comes("a network that is no text", run([odd / "bytes.net", TOP / ITEMS]), 2, "", "net: not text\n")
    checks.comes("inputs by a pipe", run([SUM, "/dev/stdin"], given=b"i: 1 2 3\n"), 0, REPORT)
    pipe = room / "pipe"
    os.mkfifo(pipe)
    writer = threading.Thread(target=lambda: pipe.write_text("i: 4 -4\n"), daemon=True)
    writer.start()
    checks.comes("inputs by a named pipe", run([SUM, pipe]), 0, "o: 4 0\ncomplete\n")
    unwritten = room / "a pipe into which nobody writes"
    os.mkfifo(unwritten)
    checks.comes("a script that isn't read", run(["--approx", "9", "--script", unwritten, SUM, ITEMS]), 0, REPORT)


def full_answer(command):
    """The answer of a run whose standard output can't be written."""
    with open("/dev/full", "wb") as full:
        ran = subprocess.run(command, cwd=TOP, stdin=subprocess.DEVNULL, stdout=full, stderr=subprocess.PIPE, timeout=answers.SECONDS)
    return ran.returncode


REFUSED = {
    "loop": "kahn 1;\noutput o;\nprocess p on 0 {\n  loop { put 1 to o; }\n}\n",
    "item": "# of the running sum\ni: 1 2 x\n",
    "nothing": "",
    "node": "0 start 1\n",
}


def check_statuses(checks, run, command, room):
    """The four statuses."""
    refused = {name: room / f"refused.{name}" for name in REFUSED}
    for name, text in REFUSED.items():
        refused[name].write_text(text)
    checks.comes("status 0", run([SUM, ITEMS]), 0, REPORT)
    checks.comes("status 3 by the items", run(["--items", "2", SUM, ITEMS]), 3, "o: 1 3\npartial\n")
    checks.comes("status 3 of a network without end", run(["--rounds", "3", "--items", "9", "examples/counter.net", "examples/counter.inputs"]), 3,
                 re.compile(r"partial\n\Z"))
    checks.comes("status 2 by the network", run([refused["loop"], ITEMS]), 2, "", "net line 4: refusal 14\n")
    checks.comes("status 2 by the inputs", run([SUM, refused["item"]]), 2, "", "inputs line 2: refusal 2\n")
    checks.comes("status 2 by a missing input", run([SUM, refused["nothing"]]), 2, "", "inputs: refusal 18\n")
    checks.comes("status 2 by the script", run(["--script", refused["node"], SUM, ITEMS]), 2, "", "script line 1: refusal 71\n")
    checks.comes("status 1 by a file", run(["nowhere.net", ITEMS]), 1, "", "net: cannot be read\n")
    if os.path.exists("/dev/full"):
        checks.note("status 1 where the report can't be written", None if full_answer([*command, SUM, ITEMS]) == 1 else "another status")


# Texts that are refused where the @ stands, which isn't part of them: of which it is, the refusal's number, and the words.
WHOLE = "kahn 1; input i; output o;\nprocess p on 0 { var v; loop { v = get i; put v to o; } }\n"
TWO = ("kahn 1;\ninput i; input j; output o; output r;\nprocess p on 0 { var v; loop { v = get i; put v to o; } }\n"
       "process q on 1 { var w; loop { w = get j; put w to r; } }\n")
NETS = [
    # 2: what begins no token
    (WHOLE.replace("put v", "put v @?"), 2, "found `?`, which begins no token, expected an operator or `to`"),
    (WHOLE.replace("put v to o;", "if v @! 3 { }"), 2, "found `!`, which begins no token, expected an operator or `{`"),
    (WHOLE.replace("var v", "var @\u00e9"), 2, "found `\u00e9` (U+00E9), which begins no token, expected the variable's name"),
    (WHOLE.replace("var v;", "var v@\a;"), 2, "found the character U+0007, which begins no token, expected `=` or `;`"),
    ("@\ufeff" + WHOLE, 2, "a byte-order mark: the text has to begin without one"),
    # 3: what was found, and what was expected
    ("@", 3, "found the end of the text, expected `kahn`"),
    ("@input i;", 3, "found `input`, expected `kahn`"),
    (WHOLE.replace("kahn 1", "kahn @3"), 3, "found `3`, expected the edition, 1 or 2"),
    (WHOLE.replace("kahn 1; ", "kahn 1 @"), 3, "found `input`, expected `;`"),
    (WHOLE.replace("output o;", "output o@, i;"), 2, "found `,`, which begins no token, expected `;`"),
    (WHOLE.replace("output o;", "output o; @o"), 3, "found `o`, expected `input`, `chan`, `output`, `process` or the end of the text"),
    (WHOLE.replace("input i", "input @1"), 3, "found `1`, expected the channel's name"),
    (WHOLE.replace("process p", "process @{"), 3, "found `{`, expected the process's name"),
    (WHOLE.replace("on 0", "@0"), 3, "found `0`, expected `on`"),
    (WHOLE.replace("on 0", "on @a"), 3, "found `a`, expected the node's number"),
    (WHOLE.replace("on 0 { ", "on 0 @"), 3, "found `var`, expected `{`"),
    (WHOLE.replace("{ var v;", "{ @5"), 3, "found `5`, expected `var`, a statement, `loop` or `}`"),
    (WHOLE.replace("var v", "var @mod"), 3, "found the keyword `mod`, expected the variable's name"),
    (WHOLE.replace("var v", "var v @-"), 3, "found `-`, expected `=` or `;`"),
    (WHOLE.replace("var v", "var v = @v"), 3, "found `v`, expected a number or `-`"),
    (WHOLE.replace("var v", "var v = - @-"), 3, "found `-`, expected a number"),
    (WHOLE.replace("var v;", "var v = 1 @+ 1;"), 3, "found `+`, expected `;`"),
    (WHOLE.replace("loop {", "put 1 to o; @var w; loop {"), 3,
     "found `var`, expected a statement, `loop` or `}`: variables are declared before the first statement"),
    (WHOLE.replace("loop {", "v @get i; loop {"), 3, "found `get`, expected `=`"),
    (WHOLE.replace("get i", "@;"), 3, "found `;`, expected `get` or a value"),
    (WHOLE.replace("get i; ", "get i @"), 3, "found `put`, expected `;`"),
    (WHOLE.replace("put v ", "put @"), 3, "found `to`, expected a number, a variable, `(` or `-`"),
    (WHOLE.replace("v to o", "v @o"), 3, "found `o`, expected an operator or `to`"),
    (WHOLE.replace("get i", "2 * (v + 1@"), 3, "found `;`, expected an operator or `)`"),
    (WHOLE.replace("get i", "v@)"), 3, "found `)`, expected an operator or `;`"),
    (WHOLE.replace("put v to o;", "if v <= 3 { put v to @; }"), 3, "found `;`, expected a channel's name"),
    (WHOLE.replace("put v to o;", "if v <= 3 @= { put v to o; }"), 3, "found `=`, expected an operator or `{`"),
    (WHOLE.replace("put v to o;", "if v <= 3 @< 4 { put v to o; }"), 3, "found `<` behind a comparison, which isn't compared again"),
    (WHOLE.replace("put v to o;", "if v { stop; } @5"), 3, "found `5`, expected `else`, a statement or `}`"),
    (WHOLE.replace("put v to o;", "if v { } else @if"), 3, "found `if`, expected `{`"),
    (WHOLE.replace("put v to o;", "@loop { }"), 3, "found `loop`, expected a statement or `}`"),
    (WHOLE.replace("} }", "} @put"), 3, "found `put`, expected `}` of the process, since nothing stands behind its loop"),
    (WHOLE.replace("} }", "}  @# no end").rstrip("\n"), 3,
     "found the end of the text, expected `}` of the process, since nothing stands behind its loop"),
    (WHOLE.replace("} }", "}") + "@", 3, "found the end of the text, expected `}` of the process, since nothing stands behind its loop"),
    (WHOLE.replace("put v to o; } }\n", "put v to o; \t@"), 3, "found the end of the text, expected a statement or `}`"),
    # words of the second edition
    (WHOLE.replace("put v", "put v @div 2"), 3, "`div` needs `kahn 2;`: this text begins with `kahn 1;`"),
    (WHOLE.replace("put v", "put v @mod 2"), 3, "`mod` needs `kahn 2;`: this text begins with `kahn 1;`"),
    (WHOLE.replace("put v to o;", "@repeat 2 { put v to o; }"), 3, "`repeat` needs `kahn 2;`: this text begins with `kahn 1;`"),
    (WHOLE.replace("kahn 1", "kahn 2").replace("put v to", "repeat @v { put v to"), 3, "found `v`, expected a number from 1 to 1,000"),
    # 4: a number's range
    (WHOLE.replace("put v", "v = v + @99999999999999999999; put v"), 4, "`99999999999999999999` is past 9223372036854775807, the greatest number"),
    (WHOLE.replace("put v", "v = -@9223372036854775808; put v"), 4,
     "`9223372036854775808` is past 9223372036854775807, the greatest number; the least one is written -9223372036854775807 - 1"),
    (WHOLE.replace("var v", "var v = -@9223372036854775808"), 4, "`9223372036854775808` is past 9223372036854775807, the greatest number"),
    (WHOLE.replace("kahn 1", "kahn 2").replace("put v to", "repeat @0 { put v to"), 4, "`0` times; a block is repeated 1 to 1,000 times"),
    (WHOLE.replace("kahn 1", "kahn 2").replace("put v to", "repeat @1001 { put v to"), 4, "`1001` times; a block is repeated 1 to 1,000 times"),
    # 5: what is too long
    (WHOLE.replace("to o", f"to @{'o' * 65}"), 5, "a name of 65 bytes; at most 64"),
    (WHOLE.replace("get i", "(" * 63 + "@(1" + ")" * 64), 5,
     "`(` opens more than 64 blocks, parentheses and minus signs within one another"),
    (WHOLE.replace("get i", "-" * 63 + "@-1"), 5, "`-` opens more than 64 blocks, parentheses and minus signs within one another"),
    ("@" + WHOLE + " " * (1_048_577 - len(WHOLE)), 5, "a text of 1,048,577 bytes; at most 1,048,576"),
    # 10: the other declaration
    ("kahn 1;\ninput i;\nchan c;\noutput @c;\n", 10, "`c` is declared twice: it is declared in line 3"),
    (WHOLE.replace("output o;", "output o; chan @i;"), 10, "`i` is declared twice: it is declared at column 15 of this line"),
    (TWO.replace("process q", "process @p"), 10, "the process `p` is declared twice: it is declared in line 3"),
    (WHOLE.replace("var v;", "var v; var @v;"), 10, "the variable `v` is declared twice: it is declared at column 22 of this line"),
    # 11: a name that isn't declared, or as something else
    (WHOLE.replace("to o", "to @x"), 11, "no channel `x` is declared"),
    (WHOLE.replace("to o", "to @v"), 11, "no channel `v` is declared; `v` is a variable of the process `p`, declared at column 22 of this line"),
    (WHOLE.replace("to o", "to @p"), 11, "no channel `p` is declared; `p` is a process, declared at column 9 of this line"),
    (WHOLE.replace("put v", "put @x"), 11, "no variable `x` is declared in the process `p`"),
    (WHOLE.replace("put v", "put @i"), 11, "no variable `i` is declared in the process `p`; `i` is an input, declared in line 1"),
    (WHOLE.replace("put v", "put @o"), 11, "no variable `o` is declared in the process `p`; `o` is an output, declared in line 1"),
    (WHOLE.replace("output o;", "output o; chan c;").replace("put v", "put @c"), 11,
     "no variable `c` is declared in the process `p`; `c` is a channel, declared in line 1"),
    (TWO.replace("put w", "put @v"), 11, "no variable `v` is declared in the process `q`; `v` is a variable of the process `p`, declared in line 3"),
    # 12, 13: who is at the other end of the channel
    (TWO.replace("w to r", "w to @o"), 12, "a second producer: the process `p` puts on `o` too, in line 3"),
    (WHOLE.replace("to o", "to @i"), 12, "a second producer: `i` is an input, whose items come from outside, declared in line 1"),
    (TWO.replace("get j", "get @i"), 13, "a second consumer: the process `p` gets from `i` too, in line 3"),
    (TWO.replace("get j", "get @o"), 13, "a second consumer: `o` is an output, whose items go outside, declared in line 2"),
    # 14: which loop, and what it lacks
    ("kahn 1; output o;\n# nothing is got\nprocess p on 0 { @loop { put 1 to o; } }", 14,
     "the loop of the process `p` may go round without an item: it has no `get` and no `stop`"),
    (WHOLE.replace("loop { v", "@loop {\n  if v { stop; } else { if 1 { v").replace("i;", "i; } }", 1) if False else
     "kahn 1; input i; output o;\nprocess p on 0 { var v; @loop {\n  if v { v = get i; } else { put v to o; }\n} }\n", 14,
     "the loop of the process `p` may go round without an item: the `get` in line 3 stands in an `if`, and may be passed by"),
    ("kahn 1; output o;\nprocess p on 0 { @loop {\n  put 1 to o;\n  if 2 { stop; } } }\n", 14,
     "the loop of the process `p` may go round without an item: the `stop` in line 4 stands in an `if`, and may be passed by"),
    # 15: which limit
    ("kahn 1;\n" + "".join(f"chan c{n};\n" for n in range(256)) + "@chan d;\n", 15, "the 257th channel; at most 256"),
    ("kahn 1;\n" + "".join(f"process p{n} on 0 {{ }}\n" for n in range(64)) + "@process q on 0 { }\n", 15, "the 65th process; at most 64"),
    (WHOLE.replace("on 0", "on @16"), 15, "node 16; nodes are 0 to 15"),
    ("kahn 1;\nprocess p on 0 {\n" + "".join(f"var v{n};\n" for n in range(64)) + "@var w; }\n", 15,
     "the 65th variable of its process; at most 64"),
    # (1,024 assignments of 4 units each, and a stop)
    ("kahn 1;\n@process p on 0 { var v = -1;\n" + "v = v + 1;\n" * 1024 + "stop; }\n", 15,
     "the process `p` has 4,097 units; at most 4,096"),
    ("kahn 2; output o;\nprocess p on 0 {\n repeat 1000 { repeat 1000 {\n @repeat 2 { put 1 to o; } } } }\n", 15,
     "repetitions within one another come to 2,000,000 passes; at most 1,000,000"),
    # 16, 17: the channel
    (WHOLE.replace("output o;", "output o;\n@output r;"), 16, "no process puts on the output `r`"),
    (WHOLE.replace("output o;", "output o;\n@chan c;"), 16, "no process puts on the channel `c`"),
    (WHOLE.replace("output o;", "output o;\n@input j;"), 17, "no process gets from the input `j`"),
    (WHOLE.replace("output o;", "output o;\n@chan c;").replace("to o;", "to o; put 1 to c;"), 17, "no process gets from the channel `c`"),
]
ITEM_TEXTS = [
    ("@\ufeffi: 1\n", 2, "a byte-order mark: the text has to begin without one"),
    ("# items\n@1: 2\n", 2, "found `1`, expected an input's name"),
    ("@ i: 2\n", 2, "found a space, expected an input's name"),
    ("@\ti: 2\n", 2, "found a tab, expected an input's name"),
    ("i@ 1\n", 2, "found a space, expected `:`"),
    ("i@\n", 3, "the line ends here, expected `:`"),
    ("i@\r\n", 3, "the line ends here, expected `:`"),
    ("i:@1\n", 2, "found `1`, expected a space"),
    ("# items\ni: 1 @x 2\n", 2, "found `x`, expected an item"),
    ("i: 1@, 2\n", 2, "found `,`, expected a digit, a space or the line's end"),
    ("i: 1 -@x\n", 2, "found `x`, expected a digit"),
    ("i: 1 -@\n", 2, "the line ends here, expected a digit"),
    ("i: -9223372036854775808 922337203685477580@8\n", 4, "`9223372036854775808` is past 9223372036854775807, the greatest item"),
    ("i: -922337203685477580@9 1\n", 4, "`-9223372036854775809` is below -9223372036854775808, the least item"),
    (f"{'i' * 64}@i: 1\n", 5, "a name of 65 bytes; at most 64"),
    ("i: 1\n@i: 2\n", 10, "`i` has its items already, in line 1"),
    ("i: 1\n\n@x: 2\n", 11, "the network has no input `x`; its inputs: `i`"),
    ("@o: 2\n", 11, "the network has no input `o`; `o` is an output, declared in line 1 of the network"),
    ("i:" + " 1" * 80 + " @x" + " 1" * 80 + "\n", 2, "found `x`, expected an item"),
    # (each item takes two bytes)
    ("# many\n@i:" + " 1" * 1_048_577 + "\n", 15, "`i` has 1,048,577 items; at most 1,048,576"),
]
SCRIPTS = [
    ("@\ufeff0 start 0\n", 70, "a byte-order mark: the text has to begin without one"),
    ("@once\n", 70, "found `once`, expected a round from 0 to 1,000,000"),
    ("@1000001 start 0\n", 70, "`1000001` is out of range: a round is from 0 to 1,000,000"),
    ("5 start 0\n# then\n@4 start 0\n", 70, "round 4 stands below round 5 of line 1"),
    ("0@\n", 70, "the line ends here, expected `lose`, `repeat`, `delay`, `crash`, `fail` or `start`"),
    ("0 @break 0\n", 70, "found `break`, expected `lose`, `repeat`, `delay`, `crash`, `fail` or `start`"),
    ("0\t@start 0\n".replace("@", "").replace("0\t", "@0\t", 1), 70, "found `0?start`, expected a round from 0 to 1,000,000"),
    ("0 lose @x 0 1\n", 70, "found `x`, expected the number of a node"),
    ("0 lose 0 @0 1\n", 70, "the node `0` sends nothing to itself"),
    ("0 lose 0 1@\n", 70, "the line ends too soon: its form is `R lose A B N`"),
    ("0 repeat 0 1 1 @1\n", 70, "the line goes on too long: its form is `R repeat A B N`"),
    ("0 lose 0 1 @0\n", 70, "`0` is out of range: a count is from 1 to 1,000,000,000"),
    ("0 lose 0 1 @1000000001\n", 70, "`1000000001` is out of range: a count is from 1 to 1,000,000,000"),
    ("0 delay 0 1 1 @x\n", 70, "found `x`, expected a number of rounds from 1 to 1,000,000"),
    ("0 crash @a now 0 1\n", 70, "found `a`, expected the number of a node"),
    ("0 crash 0 @later 0 1\n", 70, "found `later`, expected `now`, `delivery` or `device`"),
    ("0 crash 0@\n", 70, "the line ends here, expected `now`, `delivery` or `device`"),
    ("0 crash 0 now @256 1\n", 70, "`256` is out of range: a byte is from 0 to 255"),
    ("0 crash 0 now 0 @0\n", 70, "`0` is out of range: a number of rounds is from 1 to 1,000,000"),
    ("0 crash 0 delivery 1 0@\n", 70, "the line ends too soon: its form is `R crash K delivery N F T`"),
    ("0 crash 0 device 1 0 1 @1\n", 70, "the line goes on too long: its form is `R crash K device N F T`"),
    ("0 fail 0 @disk 1\n", 70, "found `disk`, expected `device`"),
    ("0 start@\n", 70, "the line ends too soon: its form is `R start K`"),
    ("# crashes\n1 crash @1 now 0 1\n", 71, "no node `1`: the network has node 0 alone"),
    ("0 lose 0 @3 1\n", 71, "no node `3`: the network has node 0 alone"),
]
EXPLAINED = [*(("net", *it) for it in NETS), *(("inputs", *it) for it in ITEM_TEXTS), *(("script", *it) for it in SCRIPTS)]


def marked_line(text, line, column):
    """A line of a text by its number, and a mark under a column, both from 1, the column in bytes. A line of more than 100 bytes is cut: it is
    shown from at most 60 bytes before the column on, and two points stand where it was cut."""
    shown = text.encode().split(b"\n")[line - 1].removesuffix(b"\r")
    number = f"{line:>4}"
    start = max(0, column - 1 - 60) if len(shown) > 100 else 0
    end = min(len(shown), start + 100)
    plain = lambda part: re.sub(r"[\x00-\x08\x0b-\x1f\x7f]", "?", part.decode())
    before = re.sub(r"[^\t]", " ", shown[start:column - 1].decode())
    first = ".." if start else ""
    last = ".." if end < len(shown) else ""
    gap = " " if shown else ""
    return f"{number} |{gap}{first}{plain(shown[start:end])}{last}\n{' ' * len(number)} | {' ' * len(first)}{before}^\n"


def explained(path, marked, why):
    """What stands behind the line of a refusal, of a text that is refused where the @ stands; with the text and its line."""
    before, _, behind = marked.partition("@")
    text = before + behind
    line, column = before.count("\n") + 1, len(before.encode()) - (before.encode().rfind(b"\n") + 1) + 1
    return text, line, f"{path}:{line}:{column}: {why}\n{marked_line(text, line, column)}"


def check_explained(checks, run, room, words):
    """What `--explain` says of refused texts, of these files: which file, where in it, why, and the line."""
    paths = {which: room / f"explained.{which}" for which in ("net", "inputs", "script")}
    asked = ["--explain", "--script", paths["script"], paths["net"], paths["inputs"]]
    good = {"net": WHOLE, "inputs": "i: 1\n", "script": "# nothing\n"}
    for which, marked, number, why in (it for it in EXPLAINED if it[0] in words):
        text, line, told = explained(paths[which], marked, why)
        for it, path in paths.items():
            path.write_text(text if it == which else good[it], newline="")
        first = f"{which} line {line}: refusal {number}\n"
        checks.comes(f"--explain of {marked[:200]!r}", run(asked), 2, "", first + told)
        checks.comes(f"without --explain, of {marked[:200]!r}", run(asked[1:]), 2, "", first)
    for it, path in paths.items():
        path.write_text(good[it])
    checks.comes("--explain of nothing", run(asked), 0, "o: 1\ncomplete\n", "")
    paths["inputs"].write_text("")
    checks.comes("--explain of an input without its line", run(asked), 2, "",
                 f"inputs: refusal 18\n{paths['inputs']}: no line for `i`; a line with the name and a colon alone gives no items\n")
    paths["inputs"].write_bytes(b"# caf\xe9\ni: 1\n")
    checks.comes("--explain of bytes that aren't text", run(asked), 2, "",
                 f"inputs: not text\n{paths['inputs']}:1:6: not UTF-8: the byte 0xE9 at offset 5\n   1 | # caf?\n     |      ^\n")
    paths["inputs"].write_bytes(b"# line 1\n# caf\xe9\ni: 1\n")
    checks.comes("--explain of bytes that aren't text, in line 2", run(asked), 2, "",
                 f"inputs: not text\n{paths['inputs']}:2:6: not UTF-8: the byte 0xE9 at offset 14\n   2 | # caf?\n     |      ^\n")
    checks.comes("--explain of a file that isn't there", run([*asked[:-1], "nowhere"]), 1, "",
                 re.compile(r"\Ainputs: cannot be read\nnowhere: No such file[^\n]*\n\Z"))


# Runs, by their options, files and script: the status, and what is told of their end. (A chan of the node that puts on two of them has
# 57,344 div 2 items at most. The second process asks for them once all 60,000 of them were put, so the first one waits for ever.
# Of SLOW the second process puts a hundred items for each that it gets, so the first one is soon ahead of it by as many as a record has.)
FULL = ("kahn 2; output o; chan c; chan d;\nprocess p on 0 { repeat 1000 { repeat 60 { put 1 to c; } } put 1 to d; }\n"
        "process q on 1 { var v; v = get d; loop { v = get c; put v to o; } }\n")
SLOW = ("kahn 2; output o; chan c;\nprocess p on 0 { repeat 1000 { repeat 1000 { put 1 to c; } } }\n"
        "process q on 1 { var v; loop { v = get c; repeat 100 { put v to o; } } }\n")
COUNTER = "kahn 1; chan n; output o;\nprocess p on 0 { var v; put 0 to n; loop { v = get n; put v to o; put v + 1 to n; } }\n"
ENDINGS = [
    ([], WHOLE, "i: 1 2\n", None, 0, ""),
    ([], COUNTER, "", None, 3, "partial: 1,000 rounds are over, the default of --rounds\n"),
    (["--rounds", "12"], COUNTER, "", None, 3, "partial: 12 rounds are over: --rounds\n"),
    (["--rounds", "1"], COUNTER, "", None, 3, "partial: 1 round is over: --rounds\n"),
    (["--items", "1500"], COUNTER, "", None, 3, "partial: the items asked for have left: --items 1500\n"),
    # nothing is left to do, and yet the report is cut
    (["--items", "1"], WHOLE, "i: 1 2\n", None, 3, "partial: the items asked for have left: --items 1\n"),
    (["--rounds", "3000"], FULL, "", None, 3, "partial: stands still: channel c is full, 28,672 items\n"),
    (["--room", "57344", "--rounds", "20"], SLOW, "", None, 3, "partial: 20 rounds are over, and channel c is full: 57,344 items\n"),
    (["--rounds", "12"], COUNTER, "", "# later\n0 start 0\n\n12 start 0\n13 start 0\n", 3,
     "partial: 12 rounds are over: --rounds\nscript line 5 never came due: round 13; the run ended in round 12\n"),
    (["--rounds", "12"], COUNTER, "", "900 start 0\n900 start 0\n# last\n1000000 start 0\n", 3,
     "partial: 12 rounds are over: --rounds\nscript line 1 and 2 below it never came due: round 900; the run ended in round 12\n"),
]


def check_endings(checks, run, room):
    """What is told of the end of a run, by turns, where it isn't complete or a line of its script never came due."""
    net, inputs, script = (room / f"ending.{which}" for which in ("net", "inputs", "script"))
    for words, net_text, items, lines, status, told in ENDINGS:
        net.write_text(net_text)
        inputs.write_text(items)
        if lines is not None:
            script.write_text(lines)
            words = ["--script", script, *words]
        checks.comes(f"the end that is told of {' '.join(map(str, words))}", run(["--explain", "--plain", *words, net, inputs]), status, re.compile(r"\A"), told)


def check_command_lines(checks, run):
    """Command lines that are refused, and such as ask for help: the text is clap's, and the status 2."""
    usage = re.compile(r"\Aerror: .*^Usage: kahnrun ", re.MULTILINE | re.DOTALL)
    for words in ([], [SUM], [SUM, ITEMS, "more"], ["--other", SUM, ITEMS], ["--plain", "--plain", SUM, ITEMS]):
        checks.comes(f"refused: {' '.join(words)}", run(words), 2, "", usage)
    error = re.compile(r"\Aerror: ")
    for words in (["--rounds", "0"], ["--rounds", "1000001"], ["--items", "x"], ["--items", "1000001"], ["--room", "63"], ["--room", "57345"],
                  ["--approx", "10001"], ["--approx", "-1"], ["--rounds"], ["--items", "1", "--items", "2"]):
        checks.comes(f"refused: {' '.join(words)}", run([*words, SUM, ITEMS]), 2, "", error)
    checks.comes("refused: a word that is no text", run([b"\xff", ITEMS]), 2, "", re.compile(r"\Aerror: invalid UTF-8 was detected"))
    for words in (["--help"], ["-h"], [SUM, "--help"]):
        checks.comes(f"help: {' '.join(words)}", run(words), 2, help_text())
    checks.comes("refused: --sync without --state", run(["--sync", SUM, ITEMS]), 2, "", re.compile(r"\Aerror: --sync .*^Usage: kahnrun ", re.MULTILINE | re.DOTALL))
    version = (TOP / "VERSION").read_text().strip()
    logic = subprocess.run(["rt", "version"], capture_output=True, text=True, check=True).stdout.split("logic ")[1].split()[0]
    for words in (["--version"], ["-V"], [SUM, "--version"]):
        checks.comes(f"the version: {' '.join(words)}", run(words), 2, f"kahnrun {version}, for rattle-kit logic {logic}\n")


def help_text():
    """What help has to have, in this order: each option, the number of each refusal that a text or an option may meet, each status, the
    document, and five tasks as commands."""
    options = ["--script <FILE>", "--state <FOLDER>", "--sync", "--rounds <N>", "--items <N>", "--room <N>", "--plain",
               "--approx <N>", "--explain", "--history <FILE>", "--quiet", "-V, --version"]
    numbers = [2, 3, 4, 5, *range(10, 20), 70, 71, 80, 81, 82, 83]
    rows = [*map(re.escape, options), *(rf"^ +{number}  \w" for number in [*numbers, 0, 3, 2, 1]), r"docs/FORMATS\.md",
            *[r"^To .*:$\n^  kahnrun "] * 5]
    return re.compile(r"\A.*^Usage: kahnrun .*" + ".*".join(rows), re.MULTILINE | re.DOTALL)


# Items as they come.
