"""sources: what tools/pages reads of the sources.

Of a source in Rattle: its functions with their comments and clauses, its types with what they keep, its traits, and its constants. Of a file
of `specs/`: its definitions. Layout is that of `rt fmt`, on which the reading rests: what stands in a file begins at column 0, and what stands
in an `impl` or a `trait` four columns further in."""

import ast
import dataclasses
import functools
import pathlib
import re

ROOT = pathlib.Path(__file__).resolve().parent.parent
CLAUSE = re.compile(r"\s*(requires|ensures)\*? (?:(\w+) )?\{")
FUNCTION = re.compile(r"( {4})?(pub |pub\(\w+\) )?(?:unsafe )?fn (\w+)")
GHOST = re.compile(r"    (?:pub )?ghost (\w+)( =|:)(.*)")
SELF = re.compile(r"\bfn \w+(?:<[^{]*?>)?\(\s*(?:&(?:'\w+ )?)?(?:mut )?self\b")
TYPE = re.compile(r"pub (struct|enum|trait) (\w+)")
IMPL = re.compile(r"(?:unsafe )?impl\b(?:<[^{]*?>)? (?:([\w:]+)(?:<[^{]*>)? for )?(?:&'?\w* ?)?([\w:]+)")


class NotThere(Exception):
    """A source has nothing of this name."""


@dataclasses.dataclass
class Clause:
    """A clause of a function, with the lines of the comment above it."""
    keyword: str
    name: str
    comment: list
    lines: list


@dataclasses.dataclass
class Function:
    """A function. Its owner is the type or the trait in which it stands; `of` is the trait that the type meets by it."""
    name: str
    owner: str
    of: str
    is_public: bool
    has_self: bool
    doc: list
    clauses: list
    block: str      # the heading of the `impl` or the trait in which it stands
    head: str       # its signature and its clauses
    body: str
    locals: set

    @property
    def path(self):
        return f"{self.owner}::{self.name}" if self.owner else self.name

    def is_law(self):
        """Whether it does nothing, so that its contract alone matters."""
        return not self.owner and not self.body


@dataclasses.dataclass
class Kind:
    """A type or a trait: its comment, and its ghost members as pairs of a name and a comment."""
    word: str
    name: str
    doc: list
    ghosts: list


def indent_of(line):
    return len(line) - len(line.lstrip())


def lines_of(path):
    return path.read_text(encoding="utf-8").splitlines()


# Clauses.

def clause_lines(lines, at):
    """The lines between a function's signature and its body, or its end where it has none."""
    indent, found = indent_of(lines[at]), []
    for line in lines[at:]:
        if found or CLAUSE.match(line) or line.strip().startswith("//"):
            if line.strip() in ("{", "{}") and indent_of(line) == indent:
                return found
            found.append(line)
            if line.rstrip().endswith("};"):
                return found[:-1] + [line.rstrip()[:-1]]
        elif line.rstrip().endswith((";", "{", "{}")):
            break
    return []


def clauses_at(lines, at):
    """The clauses of the function at a line, one by one."""
    found, comment = [], []
    for line in clause_lines(lines, at):
        clause = CLAUSE.match(line)
        if clause:
            found.append(Clause(clause[1], clause[2] or "", comment, [line]))
            comment = []
        elif line.strip().startswith("//"):
            comment.append(line)
        elif found:
            found[-1].lines.append(line)
    return found


# Items of a file.

def comment_above(lines, at):
    """The comment above a line, over its attributes: without its slashes, with an empty line between paragraphs."""
    while at and lines[at - 1].strip().startswith("#["):
        at -= 1
    found = []
    while at and re.match(r"\s*//[^!]?", lines[at - 1]) and not lines[at - 1].strip().startswith("//!"):
        at -= 1
        found.append(re.sub(r"^\s*///? ?", "", lines[at]))
    return found[::-1]


def head_and_body(lines, at):
    """The text of a function's signature and clauses, and that of its body, both without comments. A method of a trait may have no body."""
    indent, head, body, in_clauses = indent_of(lines[at]), [], [], False
    for line in lines[at:]:
        code = re.sub(r"//.*", "", line).rstrip()
        in_clauses |= bool(CLAUSE.match(code))
        if body or code == " " * indent + "{" or code.endswith("{") and not in_clauses:
            body.append(code)
        else:
            head.append(code)
        is_closed = "".join(head).count("{") == "".join(head).count("}")
        if not body and code.endswith((";", "{}")) and is_closed or body and code == " " * indent + "}":
            break
    return "\n".join(head), "\n".join(body)


def heading_from(lines, at):
    """The line at which a block begins, with those behind it up to its brace."""
    found = []
    for line in lines[at:]:
        found.append(line.strip())
        if "{" in line or line.endswith(";"):
            break
    return " ".join(found)


def ghosts_from(lines, at):
    """The ghost members of the block at a line."""
    found = []
    if lines[at].endswith(";"):
        return found
    for number in range(at + 1, len(lines)):
        if lines[number] in ("}", "};"):
            break
        ghost = GHOST.match(lines[number])
        if ghost and ghost[1] != "use":
            end = next(last for last in range(number, len(lines)) if lines[last].rstrip().endswith(("},", "};", "}")))
            found.append((ghost[1], comment_above(lines, number), " ".join(lines[number:end + 1])))
    return found


@dataclasses.dataclass
class Source:
    """What stands in a file."""
    functions: list
    kinds: dict
    invariants: dict
    met: list
    written: set


@functools.cache
def source(path):
    """What a file of `src/` has: functions, types and traits by name, types whose `Model` has an invariant, types with a trait that they meet, and
    types of which a clause says what `{}` writes."""
    lines = lines_of(path)
    found, owner, of, in_trait, heading = Source([], {}, {}, [], set()), "", "", False, ""
    for at, line in enumerate(lines):
        if line in ("}", "};"):
            owner, of, in_trait, heading = "", "", False, ""
        elif line.startswith(("impl", "unsafe impl")):
            heading = heading_from(lines, at)
            block = IMPL.match(heading)
            if block:
                owner, of, in_trait = block[2].split("::")[-1], (block[1] or "").split("::")[-1], False
                found.met.append((owner, of))
                if of == "Display" and any(ghost[0] == "output" for ghost in ghosts_from(lines, at)):
                    found.written.add(owner)
                if of == "Model" and (about := next((g for g in ghosts_from(lines, at) if g[0] == "invariant"), None)):
                    found.invariants[owner] = about
        elif kind := TYPE.match(line):
            found.kinds[kind[2]] = Kind(kind[1], kind[2], comment_above(lines, at), ghosts_from(lines, at))
            if kind[1] == "trait":
                owner, of, in_trait, heading = kind[2], "", True, heading_from(lines, at)
        if function := FUNCTION.match(line):
            if bool(function[1]) == bool(owner):
                head, body = head_and_body(lines, at)
                found.functions.append(Function(
                    function[3], owner, of, in_trait or (function[2] or "").strip() == "pub", bool(SELF.search(f"{head}\n{body}")),
                    comment_above(lines, at), clauses_at(lines, at), heading, head, body, locals_of(f"{head}\n{body}")))
    return found


# Crates.

@functools.cache
def uses():
    """What each crate names itself, by crates.txt."""
    lines = [line.split("#")[0].partition(":") for line in lines_of(ROOT / "crates.txt")]
    return {name.strip(): used.split() for name, colon, used in lines if colon}


@functools.cache
def crates_below(name):
    """A crate, and the crates of the tree on which it stands."""
    return {name}.union(*(crates_below(used) for used in uses()[name] if used in uses()))


@functools.cache
def files_of(crate):
    """The files of a crate's `src/`: lib.rt or main.rt first."""
    folder = ROOT / "crates" / crate / "src"
    return sorted(folder.rglob("*.rt"), key=lambda path: (path.name not in ("lib.rt", "main.rt"), path))


def functions_of(crate):
    return [function for file in files_of(crate) for function in source(file).functions]


@functools.cache
def kinds_of(crate):
    """The types and traits of a crate, by name."""
    return {name: kind for file in files_of(crate) for name, kind in source(file).kinds.items()}


def invariants_of(crate):
    """The invariants of a crate's types, by type."""
    return {name: about for file in files_of(crate) for name, about in source(file).invariants.items()}


def is_written(crate, name):
    """Whether a clause says what `{}` writes of a type of a crate."""
    return any(name in source(file).written for file in files_of(crate))


def met_traits(crate):
    """Types of a crate, each with a trait that it meets."""
    return [pair for file in files_of(crate) for pair in source(file).met]


@functools.cache
def exported(crate):
    """The names that a crate gives out of its own modules, in the order of its lib.rt."""
    text = re.sub(r"//.*", "", "\n".join(lines_of(files_of(crate)[0])))
    modules = set(re.findall(r"^(?:pub )?mod (\w+);", text, re.M))
    names = []
    for path, group in re.findall(r"^pub use ([\w:]+?)(?:::\{([^}]*)\})?;", text, re.M):
        parts = path.removeprefix("crate::").split("::")
        if parts[0] in modules:
            names += re.findall(r"\w+", group) if group else [parts[-1]]
    return names + re.findall(r"^pub (?:fn|struct|enum|trait) (\w+)", text, re.M)


@functools.cache
def trait_clauses(trait, name):
    """The names of the clauses that a trait of the tree has at a method."""
    for crate in uses():
        if trait in kinds_of(crate):
            return {clause.name for function in functions_of(crate) if function.owner == trait and function.name == name and not function.of
                    for clause in function.clauses}
    return set()


@functools.cache
def has_trait(trait):
    """Whether a trait is one of the tree."""
    return any(trait in kinds_of(crate) for crate in uses())


# Quotations.

def function_at(lines, path):
    """The number of the line at which a function begins."""
    kind, _, name = path.rpartition("::")
    places = [at for at, line in enumerate(lines) if re.match(rf"\s*(pub(\(\w+\))? )?fn {re.escape(name)}\b", line)]
    if len(places) > 1 and kind:
        places = [at for at in places if re.search(rf"\b{re.escape(kind)}\b", type_above(lines, at))]
    if len(places) != 1:
        raise NotThere(f"{len(places)} functions {path}")
    return places[0]


def type_above(lines, at):
    """The line of the `impl` or `trait` in which the function of a line stands, or nothing."""
    for line in reversed(lines[:at]):
        if line.strip() and indent_of(line) < indent_of(lines[at]):
            return line if re.match(r"\s*(unsafe )?(pub )?(impl|trait)\b", line) else ""
    return ""


def quoted_clauses(lines, path, wanted):
    """The clauses of a function, or those of these names."""
    found = clauses_at(lines, function_at(lines, path))
    missing = [name for name in wanted if name not in [clause.name for clause in found]]
    if missing or not found:
        raise NotThere(f"no clause {', '.join(missing)} at {path}")
    chosen = [line for clause in found if not wanted or clause.name in wanted for line in clause.comment + clause.lines]
    while not chosen[-1].strip():
        chosen.pop()
    least = min(indent_of(line) for line in chosen if line.strip())
    return [line[least:] for line in chosen]


def quoted_definition(lines, path):
    """A definition with the comment above it, or one field of a record."""
    name, _, field = path.partition(".")
    start = next((at for at, line in enumerate(lines) if re.match(rf"(\w+ )*pub (\w+ )*{re.escape(name)} ", line)), None)
    if start is None:
        raise NotThere(f"no definition {name}")
    end = next((at for at in range(start, len(lines)) if not lines[at].strip()), len(lines))
    if field:
        first = next((at for at in range(start, end) if re.match(rf"\s+pub {re.escape(field)} :", lines[at])), None)
        if first is None:
            raise NotThere(f"no field {path}")
        last = next((at for at in range(first + 1, end) if indent_of(lines[at]) <= indent_of(lines[first])), end)
        return [line[indent_of(lines[first]):] for line in [lines[first].replace("pub ", "", 1)] + lines[first + 1:last]]
    while start and lines[start - 1].startswith("--"):
        start -= 1
    return lines[start:end]


def definitions(file):
    """The definitions of a file that have a comment, each with it: of a source in Rattle its types and functions, with the first paragraph."""
    if not (ROOT / file).is_file():
        raise NotThere(f"no file {file}")
    lines = lines_of(ROOT / file)
    return dict(defined_in_source(lines) if file.endswith(".rt") else defined_in_specs(lines))


def defined_in_source(lines):
    """The types and functions outside of any block that have a comment, each with its first paragraph."""
    for at, line in enumerate(lines):
        named = re.match(r"(?:pub(?:\(\w+\))? )?(?:unsafe )?(?:struct|enum|trait|fn|type|const) (\w+)", line)
        if named and (comment := comment_above(lines, at)):
            yield named[1], " ".join(comment[:comment.index("")] if "" in comment else comment)


def defined_in_specs(lines):
    """The definitions that have a comment, those of a `mutual` block among them, each with it."""
    in_mutual = False
    for at, line in enumerate(lines):
        in_mutual = bool(re.fullmatch(r"(\w+ )*mutual", line)) or in_mutual and (not line or line.startswith(" "))
        named = re.match(r"(?:\w+ )*pub (?:(?:record|data|mutual) )*([^\s(){}]+)", line[2:] if in_mutual and line.startswith("  pub") else line)
        above = at
        while above and lines[above - 1].lstrip().startswith("--"):
            above -= 1
        if named and above < at:
            yield named[1], " ".join(text.lstrip("- ") for text in lines[above:at])


def fields(file, name):
    """The fields of a record: each with the comment above it, and with what it says."""
    lines, found, comment = quoted_definition(lines_of(ROOT / file), name), [], []
    for line in lines:
        field = re.match(r"  pub (\S+) : (.*)", line)
        if field:
            found.append([field[1], " ".join(comment), field[2]])
            comment = []
        elif line.startswith("  --"):
            comment.append(line.strip("- "))
        elif found and line.startswith("    "):
            found[-1][2] += " " + line.strip()
    return found


def quoted(file, path, names):
    """What a source says of a function or of a definition."""
    if not (ROOT / file).is_file():
        raise NotThere(f"no file {file}")
    lines = lines_of(ROOT / file)
    wanted = [name.strip() for name in (names or "").split(",") if name.strip()]
    return quoted_definition(lines, path) if file.endswith(".antt") else quoted_clauses(lines, path, wanted)


# Constants.

def constant_text(crate, name):
    """How a crate's source or definition writes a number."""
    for file in files_of(crate):
        found = re.search(rf"^pub(?:\(crate\))? const {name}: \w+ = ([^;]+);", "\n".join(lines_of(file)), re.M)
        if found:
            return found[1]
    for file in sorted((ROOT / "crates" / crate / "specs").rglob("*.antt")):
        found = re.search(rf"^(?:\w+ )*pub {name} : ℕ\n{name} = (.+)$", "\n".join(lines_of(file)), re.M)
        if found:
            return found[1]
    raise NotThere(f"no constant {crate}::{name}")


def constant(crate, name):
    """The number that a constant is."""
    return worked_out(ast.parse(constant_text(crate, name).strip(), mode="eval").body, crate)


def worked_out(node, crate):
    """The number of an expression of numbers and other constants."""
    if isinstance(node, ast.Constant):
        return node.value
    if isinstance(node, ast.Name):
        for name in [crate, *sorted(crates_below(crate) - {crate})]:
            try:
                return constant(name, node.id)
            except NotThere:
                continue
        raise NotThere(f"no constant {node.id} below {crate}")
    if isinstance(node, ast.BinOp):
        left, right = worked_out(node.left, crate), worked_out(node.right, crate)
        made = {ast.Add: left + right, ast.Sub: left - right, ast.Mult: left * right, ast.LShift: left << right}
        if type(node.op) in made:
            return made[type(node.op)]
        if isinstance(node.op, ast.Div):
            return left // right
    raise NotThere(f"a constant of {crate} isn't read")


# Names in a body.

LOCAL = re.compile(r"(?<![\w.])([a-z]\w*)(?=: [^:])|let (?:mut )?(\w+)|for (\w+) in|\((\w+)\)(?= =>)")
BARE = re.compile(r"(?<=[(,\s])([a-z]\w*)(?=[,)\n])")


def locals_of(text):
    """The names of a function's parameters and variables."""
    return {name for names in LOCAL.findall(text) for name in names if name}
