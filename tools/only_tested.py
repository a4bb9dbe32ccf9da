"""only_tested: the functions that no clause speaks for, and the wrong bodies of them that tools/mutants tries.

A function is one of these where it is public and has no clause; where it is of a crate of which docs/CRATES.md says "only tested"; and where a
crate's README names it in a section or a paragraph of what is only tested."""

import dataclasses
import functools
import re

import sources

BODIES = sources.ROOT / "tools/mutant_bodies"
GENERATED = re.compile(r"<!-- (?:ledger|laws|fields|names|tried)\b.*?<!-- end -->", re.S)
SAID = re.compile(r"\bonly tested\b|\btested alone\b", re.I)
OTHERWISE = re.compile(r"\*\*(?:Neither|Measured)\*\*")


def told_in_prose(crate):
    """What a crate's README says by hand to be only tested."""
    text = GENERATED.sub("", (sources.ROOT / "crates" / crate / "README.md").read_text(encoding="utf-8"))
    inside = False
    for paragraph in re.split(r"\n\n+", text):
        if paragraph.startswith("#"):
            inside = bool(SAID.search(paragraph))
        elif inside or SAID.search(paragraph):
            yield OTHERWISE.split(paragraph)[0]


def crates_told():
    """The crates of which docs/CRATES.md says that they are only tested."""
    rows = sources.lines_of(sources.ROOT / "docs/CRATES.md")
    return {name[1] for row in rows if SAID.search(row) and (name := re.match(r"\| \[`(\w+)`\]", row))}


@functools.cache
def functions():
    """These functions by name, as CRATE::PATH, each with where it is said."""
    found = {}
    for crate in sorted(sources.crates_below("kahnrun")):
        named = set(re.findall(r"`([\w:]+)`", " ".join(told_in_prose(crate))))
        for function in sources.functions_of(crate):
            if function.of or function.is_law():
                continue
            given = function.is_public and (function.owner or function.name) in sources.exported(crate)
            name = f"{crate}::{function.path}"
            if given and not function.clauses:
                found.setdefault(name, "it has no clause")
            if given and crate in crates_told():
                found.setdefault(name, "docs/CRATES.md says so of its crate")
            if named & {function.path, function.name}:
                found.setdefault(name, "the README of its crate says so")
    return found


@dataclasses.dataclass
class Body:
    """A wrong body: of which functions it is one, and which texts of which files it replaces."""
    title: str
    of: list
    edits: list


def bodies():
    """The wrong bodies, and by function why one can't have any."""
    found, without = [], {}
    for line in sources.lines_of(BODIES):
        word, _, text = line.partition(": ")
        if line.startswith("== "):
            found.append(Body(line[3:], [], []))
        elif word == "none":
            name, _, why = text.partition(": ")
            without[name] = why
        elif word == "of":
            found[-1].of += text.split(", ")
        elif word == "file" and found:
            found[-1].edits.append((text, []))
        elif word == "old":
            found[-1].edits[-1][1].append(text)
    return found, without


def is_of(body, name):
    """Whether a text that a body replaces stands in a function, or in a call of it."""
    last = name.split("::")[-1]
    for file, old in body.edits:
        if re.search(rf"\b{last}\(", " ".join(old)):
            return True
        pattern = r"\s*".join(re.escape(line.strip()) for line in old)
        if any(function.name == last and re.search(pattern, function.body) for function in sources.source(sources.ROOT / file).functions):
            return True
    return False


def faults():
    """What is wrong: a function without a body, and a body that isn't of the function that it names."""
    found, without = bodies()
    named = {name for body in found for name in body.of}
    known = {f"{crate}::{function.path}" for crate in sources.uses() for function in sources.functions_of(crate)}
    wrong = [f"{name} is only tested ({why}), and no body is one of it" for name, why in functions().items() if name not in named | without.keys()]
    wrong += [f"there is no function {name}" for name in sorted((named | without.keys()) - known)]
    wrong += [f"the body '{body.title}' isn't of {name}" for body in found for name in body.of if name in known and not is_of(body, name)]
    return wrong


def table():
    """Each function that is only tested, why it is said to be, and its bodies."""
    found, without = bodies()
    for name, why in functions().items():
        yield name, why, [body.title for body in found if name in body.of] or [f"none: {without.get(name, '')}"]
