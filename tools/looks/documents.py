"""The commands of README and of the tutorial, and the examples."""

import concurrent.futures
import pathlib
import re
import shlex
import tempfile

from looks.answers import Answer, storm, APPROXIMATION, COMPLETE, EXAMPLES, PICTURES, TOP, TUTORIAL

# A block of a page, with the name of a file where one stands in the line above, and the word behind its fence.
BLOCK = re.compile(r"(?:^(\S+):\n)?^```(\w*)\n(.*?)^```$", re.MULTILINE | re.DOTALL)
TOLD = re.compile(r"(net|inputs|input \w+|script|state|history)(?: line \d+)?: .*\n|went on behind item .*\n")     # a line on standard error


def blocks(path):
    """The blocks of a page that have no word behind their fence: the file of which each is the text, if any, and the text."""
    return [(name, text) for name, word, text in BLOCK.findall(path.read_text()) if not word]


def commands(text):
    """Each command of a block, and what stands below it."""
    for part in re.split(r"^\$ ", text, flags=re.MULTILINE)[1:]:
        command, _, below = part.partition("\n")
        yield command, below.rstrip("\n") + "\n" if below.strip() else ""


def is_told(command, line):
    """Whether a line that stands below a command comes on standard error: with --stream `complete` does too, and with --status none does."""
    return "--status" not in command and bool(TOLD.fullmatch(line)) or "--stream" in command and line == COMPLETE


def expected(command, below):
    """The status, standard output and standard error of a command with these lines below it. Where it prints another line last, that is
    of a command behind it, as `echo $?`."""
    lines = below.splitlines(keepends=True)
    out, told = [line for line in lines if not is_told(command, line)], [line for line in lines if is_told(command, line)]
    if told and not out and told[-1] != COMPLETE:
        return 1 if told[0].startswith("state") else 2, "", "".join(told)
    return {"complete\n": 0, "partial\n": 3}.get(lines[-1] if lines else "", 0), "".join(out), "".join(told)


def commands_within(path):
    """The commands of ./kahnrun that stand within the sentences of a document."""
    return [words for words in re.findall(r"`(\./kahnrun [^`]*)`", path.read_text()) if "NET" not in words]


def approximation(program, net, inputs):
    """The streams of an approximation."""
    return Answer([program, "--approx", str(APPROXIMATION), net, inputs]).streams()


def begins(streams, others):
    """Whether each stream is a beginning of the other of its name."""
    return streams is not None and others is not None and list(streams) == list(others) and all(
        streams[name] == others[name][:len(streams[name])] for name in streams)


def check_readme(checks, program, launcher):
    shown = [command for _, text in blocks(TOP / "README.md") for command in commands(text)]
    found = [command for command, _ in shown]
    checks.note("README shows ./test and ./kahnrun", None if "./test" in found and any("./kahnrun" in it for it in found) else str(found))
    # (in a folder of its own, since some make folders)
    with tempfile.TemporaryDirectory(prefix="readme-") as stand:
        (pathlib.Path(stand) / "kahnrun").symlink_to(launcher)
        (pathlib.Path(stand) / "examples").symlink_to(EXAMPLES)
        for command, below in shown:
            if not command.startswith("./test"):
                checks.comes(f"README: {command}", Answer(["bash", "-c", command], cwd=stand), *expected(command, below))
    for path in (TOP / "README.md", EXAMPLES / "README.md"):
        for command in commands_within(path):
            words = shlex.split(command)[1:]
            answer, whole = Answer([launcher, *words]), approximation(program, *words[-2:])
            right = begins(answer.streams(), whole) and not answer.err and any(answer.streams().values())
            checks.note(f"{path.relative_to(TOP)}: {command}", None if right else f"{answer.told()}; approximation {whole}")


def check_tutorial(checks, launcher, stand):
    """The files of the tutorial are written, and its commands are run, in its order and in a new folder that has what its reader needs; the
    pictures that it shows have to be those that its commands made."""
    stand.mkdir()
    (stand / "kahnrun").symlink_to(launcher)
    (stand / "tools").symlink_to(TOP / "tools")
    for name, text in blocks(TUTORIAL):
        if name:
            (stand / name).write_text(text)
            continue
        checks.note("a block of the tutorial", None if text.startswith("$ ") else f"it is no file and no command: {text!r}")
        for command, below in commands(text):
            checks.comes(f"tutorial: {command}", Answer(["bash", "-c", command], cwd=stand), *expected(command, below))
    made, kept = ({path.name: path.read_bytes() for path in folder.glob("*.svg")} for folder in (stand / "tutorial", PICTURES / "tutorial"))
    checks.note("the tutorial's pictures", differing(made, kept))


def differing(made, kept):
    """The pictures that aren't the ones that are made now, if any."""
    names = sorted(name for name in made.keys() | kept.keys() if made.get(name) != kept.get(name))
    return f"{' '.join(names)} in {PICTURES.relative_to(TOP)} aren't what tools/draw makes" if names or not made else None


def expected_streams(name):
    """The text that stands beside an example, and its streams."""
    text = (EXAMPLES / f"{name}.out").read_text()
    return text, {row.partition(":")[0]: row.partition(":")[2].split() for row in text.splitlines()[:-1]}


def check_example(checks, program, launcher, name):
    """An example by ./kahnrun: by threads, by turns and by its script, beside its text, which is a beginning of the approximation."""
    words = [f"examples/{name}.net", f"examples/{name}.inputs"]
    text, streams = expected_streams(name)
    ends, whole = text.endswith("complete\n"), approximation(program, *words)
    options = [launcher] if ends else [launcher, "--items", str(max(map(len, streams.values())))]
    checks.note(f"examples/{name}: its text is of the approximation", None if begins(streams, whole) else f"{streams}, {whole}")
    checks.comes(f"examples/{name}", Answer([*options, *words]), 0 if ends else 3, text)
    checks.comes(f"examples/{name} by turns", Answer([*options, "--plain", *words]), 0 if ends else 3, text)
    if (EXAMPLES / f"{name}.script").exists():
        script = ["--script", f"examples/{name}.script"]
        checks.comes(f"examples/{name} by its script and turns", Answer([*options, "--plain", *script, *words]), 0 if ends else 3, text)
        check_by_threads(checks, name, Answer([*options, *script, *words]), text, whole)


def check_by_threads(checks, name, answer, text, whole):
    """What came of an example by its script and threads. Where the channels form a cycle over nodes these may set each other back without end,
    so that it need not get on: then a beginning is enough."""
    cyclic = storm.forms_cycle(storm.channels_between((EXAMPLES / f"{name}.net").read_text()))
    right = answer.out == text or (cyclic and answer.status == 3 and begins(answer.streams(), whole))
    checks.note(f"examples/{name} by its script", None if right and not answer.err else answer.told())


def check_examples(checks, program, launcher, jobs):
    names = sorted(path.stem for path in EXAMPLES.glob("*.net"))
    checks.note("examples/ has networks", None if len(names) > 5 else str(names))
    with concurrent.futures.ThreadPoolExecutor(jobs) as pool:
        list(pool.map(lambda name: check_example(checks, program, launcher, name), names))


# Pictures.
