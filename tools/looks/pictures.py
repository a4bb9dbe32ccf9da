"""What tools/draw makes of networks and of histories."""

import re
import xml.etree.ElementTree

from looks.answers import Answer, draw, storm, EXAMPLES, PICTURES, SUM, TOP
from looks.documents import differing

# What tools/draw can't read, with what it says.
UNREADABLE = {
    "kahn 1;\n# a line\noutput o; chan %;\n": "line 3: '%' begins no token",
    "kahn 1;\noutput get;\n": "line 2: a name should stand in place of get",
    "kahn 1; # }\nprocess p on 0 {\n": "line 3: the process p isn't closed",
    "kahn 1;\nprocess p on 0 {\n  var v;\n  v = get c;\n}\n": "line 4: no channel is called c",
    "kahn 1;\noutput o;\n": "line 2: nobody puts on o",
}

# A history, and the words that its picture has to have.
HISTORY = """history 2
channel 0 i outside 0
channel 1 o 1 outside
channel 2 c 0 1
process 0 pass 0
process 1 sum 1
driver lose 0 1 2: acted
0 grant 0: granted
0 install 0 0: installed
0 send 0: sent
1 deliver 1 at 0: delivered
1 deliver 1 at 0: delivered
1 install 1 1: installed
1 start 1: started
1 send 1: sent
0 deliver 0 at 0: delivered
1 decide 1: decided
1 release 1: released 1 1
1 release 1: released 1 2
0 idle 0: idled
1 idle 1: idled
driver crash 1 now 7 3: crashed
0 idle 0: idled
1 recover 1: recovered
widened 2
"""
HEAD_OF_HISTORY = ["node 0", "node 1", "pass", "sum", "round", "items", "left"]
WORDS_OF_ROUNDS = {
    0: ["lose 0 1 2", "runs pass", "sends", "2 packets come", "runs sum", "a checkpoint begins", "sends", "a packet comes", "it is decided",
        "o: items 1 to 2 leave", "o 2"],
    1: ["CRASH"],
    2: ["is back", "c gets more room"],
}

# And histories that tools/draw can't read, with what it says.
UNREADABLE_HISTORIES = {
    "history 1\n": "line 1: history 2 should stand here",
    "history 2\n0 sing 0: sung\n": "line 2: this is no line of a history",
    "history 2\nprocess 1 pass 0\n": "line 2: this is no line of a process",
    "history 2\nprocess 0 pass 0\n1 idle 1: idled\n": "line 3: the network has no such node",
    "history 2\nprocess 0 pass 0\n0 release 0: released 0 1\n": "line 3: the network has no such channel or process",
    "history 2\nprocess 0 pass 0\nwidened 0\n": "line 3: the network has no such channel or process",
    "history 2\nprocess 0 pass 0\nwidened\n": "line 3: this is no line of a history",
}


def drawn(lines, path):
    """What tools/draw makes of a file, in one of its two forms."""
    return "".join(f"{line}\n" for line in lines(draw.Network(draw.read(path)), path.stem))


def ends_of_channels(text):
    """What each channel joins, in no order."""
    parts = re.split(r"^process (\w+) on \d+", text, flags=re.MULTILINE)[1:]
    firsts, lasts = ({name: f"{kind} {name}" for name in re.findall(rf"^{kind} (\w+);", text, re.MULTILINE)} for kind in ("input", "output"))
    for name, body in zip(parts[::2], parts[1::2]):
        lasts |= dict.fromkeys(re.findall(r"= get (\w+)", body), f"process {name}")
        firsts |= dict.fromkeys(re.findall(r"put [^;]* to (\w+)", body), f"process {name}")
    return sorted((firsts[name], lasts[name]) for name in firsts)


def check_drawing(checks, path, room):
    """A network as it is drawn: each process, channel, input, output and node has its name there, once, and each channel its ends."""
    text = re.sub(r"#.*", "", path.read_text())
    processes, named = re.findall(r"^process (\w+) on (\d+)", text, re.MULTILINE), re.findall(r"^(input|chan|output) (\w+);", text, re.MULTILINE)
    nodes, between = [f"node {node}" for node in range(storm.node_count(text))], len(storm.channels_between(text))
    graph, picture = drawn(draw.dot_lines, path), drawn(draw.svg_lines, path)
    parts = re.findall(r'"cluster_\d+" \{\s+label="(node \d+)";(.*?)\}', graph, re.DOTALL)
    clusters = {node: re.findall(r'"process (\w+)"', part) for node, part in parts}
    right = clusters == {node: [name for name, on in processes if f"node {on}" == node] for node in nodes}
    checks.note(f"{path.name} for Graphviz, nodes and processes", None if right else graph)
    shapes, labels = re.findall(r'^  "(input|output) (\w+)" \[', graph, re.MULTILINE), re.findall(r'label=" (\w+) "', graph)
    right = sorted(shapes + [("chan", name) for name in labels]) == sorted(named) and graph.count("penwidth") == between
    checks.note(f"{path.name} for Graphviz, inputs, outputs and channels", None if right else graph)
    arrows = re.findall(r'^  "(\w+ \w+)" -> "(\w+ \w+)"', graph, re.MULTILINE)
    right = sorted(arrows) == ends_of_channels(text) and picture.count('fill="none"') == len(arrows)
    checks.note(f"{path.name}, what its channels join", None if right else graph + picture)
    texts = [it.text for it in xml.etree.ElementTree.fromstring(picture).iter() if it.tag.endswith("}text")]
    right = sorted(texts) == sorted(nodes + [name for name, _ in processes] + [name for _, name in named]) and picture.count('width="2.4"') == between
    checks.note(f"{path.name} as a picture", None if right else picture)
    other = room / path.name
    other.write_text(re.sub(r"\s+", "\n# } process no on 9 { get none; put 1 to none;\n", text))
    checks.note(f"{path.name} in another layout", None if drawn(draw.dot_lines, other) == graph else drawn(draw.dot_lines, other))


# The examples of whose runs the documents have a picture, with further words of the command line; and how its name ends.
RUNS_DRAWN = {"two_nodes": [], "pipeline": [], "kahn_1974": ["--items", "2"]}
RUN = "_run.svg"


def picture_of_run(run, name, words, room):
    """What tools/draw makes of the history of an example, by turns and with its script."""
    net, script, file = EXAMPLES / f"{name}.net", EXAMPLES / f"{name}.script", room / f"{name}_drawn.history"
    script = ["--script", script] if script.exists() else []
    run(["--plain", *words, *script, "--history", file, net, net.with_suffix(".inputs")])
    return drawn_history(file.read_text(), name).encode()


def check_pictures(checks, run, room):
    """What tools/draw makes of the examples and of what it can't read, and the pictures of examples that the documents have."""
    (room / "drawn").mkdir()
    for path in sorted(EXAMPLES.glob("*.net")):
        check_drawing(checks, path, room / "drawn")
    kept = {path.name: path.read_bytes() for path in PICTURES.glob("*.svg")}
    made = {name: drawn(draw.svg_lines, EXAMPLES / name.replace(".svg", ".net")).encode() for name in kept if not name.endswith(RUN)}
    made |= {f"{name}{RUN}": picture_of_run(run, name, words, room) for name, words in RUNS_DRAWN.items()}
    heads = {name: covered_heads(picture.decode()) for name, picture in made.items() if name.endswith(RUN)}
    fine = sum(count for count, _ in heads.values()) > 5 and not any(found for _, found in heads.values())
    checks.note("the points of arrows in pictures of runs", None if fine else str(heads))
    checks.note("the pictures of examples", differing(made, kept))
    for page in (TOP / "README.md", *sorted((TOP / "docs").glob("*.md"))):
        for link in re.findall(r"\]\(([^)]*\.svg)\)", page.read_text()):
            checks.note(f"a picture of {page.name}", None if (page.parent / link).exists() else f"{link} isn't there")
    command, net = [TOP / "tools/draw"], EXAMPLES / "two_nodes.net"
    checks.comes("tools/draw", Answer([*command, net]), 0, drawn(draw.dot_lines, net))
    checks.comes("tools/draw --svg", Answer([*command, "--svg", net]), 0, drawn(draw.svg_lines, net))
    for text, fault in UNREADABLE.items():
        (room / "unreadable.net").write_text(text)
        checks.comes(f"tools/draw of {text!r}", Answer([*command, room / "unreadable.net"]), 2, "", f"draw: {fault}\n")
    checks.comes("tools/draw of no file", Answer([*command, "nowhere.net"]), 1, "", "draw: nowhere.net: cannot be read\n")


def drawn_history(text, name):
    """What tools/draw makes of a whole history."""
    return "".join(f"{line}\n" for line in draw.history_lines(draw.chart_of(draw.History(text), 0, None)[0], name))


def words_of(picture):
    """The texts of a picture."""
    return [it.text for it in xml.etree.ElementTree.fromstring(picture).iter() if it.tag.endswith("}text")]


def covered_heads(picture):
    """The points of arrows in a picture of a history that stand under a word. A word is as wide as its letters, and as high as one."""
    numbers = "(-?[0-9.]+)"
    heads = re.findall(rf'<path d="M{numbers} {numbers} L{numbers} {numbers} L{numbers} {numbers} Z" fill="#1f5fbf"/>', picture)
    words = [(float(x), float(y), draw.LETTER * len(text)) for x, y, text in re.findall(rf'<text x="{numbers}" y="{numbers}"[^>]*HALO[^>]*>([^<]*)<'.replace(
        "HALO", "paint-order"), picture)]
    found = []
    for head in heads:
        across, down = [float(it) for it in head[::2]], [float(it) for it in head[1::2]]
        found += [(head, word) for word in words if min(across) < word[0] + word[2] and max(across) > word[0] and min(down) < word[1] + 3 and max(down) > word[1] - 9]
    return len(heads), found


def check_long_histories(checks, command, file):
    """A picture that would be too high stops behind the last round that fits whole, and what is drawn of the next rounds goes on there; or
    within a round that fills it alone."""
    rounds, sendings = 700, 5
    head = "history 2\nchannel 0 i outside 0\nchannel 1 o 0 outside\nprocess 0 pass 0\n"
    file.write_text(head + rounds * (sendings * "0 send 0: sent\n" + "0 idle 0: idled\n") + "0 send 0: sent\n")
    seen, first = [], 0
    while first is not None and len(seen) <= rounds:
        answer = Answer([*command, file, "--from", str(first)])
        seen += [int(word) for word in words_of(answer.out) if word.isdigit()] if answer.status == 0 else []
        height = re.search(r'height="([0-9.]+)"', answer.out)
        checks.note(f"a long history from round {first}", None if height and 0 < float(height[1]) < 21_000 else answer.told())
        told = re.fullmatch(rf"draw: drawn are the rounds {first} to (\d+): a picture is at most 20000 points high, and --from (\d+) goes on\n", answer.err)
        fine = int(told[1]) == seen[-1] == int(told[2]) - 1 if told else (answer.err, seen[-1:]) == ("", [rounds])
        checks.note(f"what is told of a long history from round {first}", None if fine else answer.err)
        first = int(told[2]) if told else None
    checks.note("a long history, part by part", None if seen == list(range(rounds + 1)) else str(seen[:20]))
    file.write_text(head + 2000 * "0 send 0: sent\n")
    answer = Answer([*command, file])
    fine = answer.status == 0 and 800 < words_of(answer.out).count("sends") < 1000
    checks.note("a long round", None if fine and answer.err == "draw: round 0 is cut: a picture is at most 20000 points high\n" else answer.told())


def check_histories(checks, room):
    """What tools/draw makes of a history: a word for each thing that happened, a number for each round and for what left, an arrow for each
    sending behind which a packet came, one that breaks off, a cross for a crash, a bar for a checkpoint, and a line for each round's end and
    where a channel got more room; all of it, or the rounds that are asked for."""
    command, file = [TOP / "tools/draw", "--history"], room / "run.history"
    file.write_text(HISTORY)
    answer = Answer([*command, file])
    checks.comes("tools/draw --history", answer, 0, drawn_history(HISTORY, "run"))
    for words, rounds in ([], [0, 1, 2]), (["--to", "0"], [0]), (["--from", "1"], [1, 2]), (["--from", "1", "--to", "1"], [1]), (["--to", "9"], [0, 1, 2]):
        wanted = HEAD_OF_HISTORY + [word for it in rounds for word in [str(it), *WORDS_OF_ROUNDS[it]]]
        part = Answer([*command, file, *words])
        fine = part.status == 0 and not part.err and sorted(words_of(part.out)) == sorted(wanted)
        checks.note(f"tools/draw --history {' '.join(words)}", None if fine else part.told())
    for words, told in ((["--from", "3"], "there are the rounds 0 to 2"), (["--from", "2", "--to", "1"], "--from 2 stands behind --to 1")):
        checks.comes(f"tools/draw --history {' '.join(words)}", Answer([*command, file, *words]), 2, "", f"draw: {told}\n")
    checks.comes("tools/draw --from of a network", Answer([TOP / "tools/draw", "--from", "1", SUM]), 2, "", re.compile("--from and --to go with --history"))
    counts = {'opacity="0.6"': 2, 'stroke-dasharray="5 3"': 1, 'stroke-width="2.4"': 2, 'stroke-width="5"': 1, 'stroke-dasharray="2 3"': 3}
    checks.note("a history as a picture", None if all(answer.out.count(word) == count for word, count in counts.items()) else answer.out)
    check_long_histories(checks, command, file)
    for text, fault in UNREADABLE_HISTORIES.items():
        file.write_text(text)
        checks.comes(f"tools/draw --history of {text!r}", Answer([*command, file]), 2, "", f"draw: {fault}\n")
    checks.comes("tools/draw --history of no file", Answer([*command, "nowhere.history"]), 1, "", "draw: nowhere.history: cannot be read\n")


# What happened in a run, and how far one has come.
