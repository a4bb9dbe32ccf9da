"""ledgers: the tables that tools/pages writes of the sources: what each call of a crate says, and which calls the program never makes."""

import hashlib
import re

import calls
import sources

TEXT_COLUMNS = 320
ROW_COLUMNS = 400
STATEMENT_COLUMNS = 120
HEAD = ["| Call | What its source says | Clause |", "|---|---|---|"]


def cell(text):
    """A text as it may stand in a cell."""
    return re.sub(r"(?<!\\)\|", r"\\|", " ".join(text.split()))


def pieces(text):
    """A comment in pieces that fit a row: of whole sentences, but for a sentence that is longer than a row."""
    found = [""]
    for sentence in re.split(r"(?<=[.;:])\s+", cell(text)):
        parts = [sentence] if len(sentence) <= TEXT_COLUMNS else re.split(r"(?<=,)\s+", sentence)
        for part in parts:
            if found[-1] and len(found[-1]) + len(part) > TEXT_COLUMNS:
                found.append("")
            found[-1] = f"{found[-1]} {part}".strip()
    return found


def rows_of(head, text, clause):
    """Rows for a comment: what is named stands in the first of them, and the clauses in the last."""
    texts = pieces(text)
    if len(head) + len(texts[-1]) + len(clause) > ROW_COLUMNS - 10:
        texts.append("")
    for at, piece in enumerate(texts):
        yield f"| {head if at == 0 else ''} | {piece} | {clause if at == len(texts) - 1 else ''} |"


def names(clauses):
    return ", ".join(f"`{clause.name}`" for clause in clauses if clause.name)


def clause_cell(clauses):
    """The clauses of a function that have no comment: what it promises, and what it asks for."""
    promised = [clause for clause in clauses if clause.keyword == "ensures"]
    asked = [clause for clause in clauses if clause.keyword == "requires"]
    parts = [names(promised)] if names(promised) else []
    if any(not clause.name for clause in promised):
        parts.append("its `ensures`")
    if asked:
        parts.append(f"asks for {names(asked)}" if names(asked) else "its `requires`")
    return "; ".join(parts)


def comment_of(clause):
    return " ".join(re.sub(r"^\s*// ?", "", line) for line in clause.comment)


def own_clauses(function):
    """The clauses of a function but for those that its trait has too."""
    theirs = sources.trait_clauses(function.of, function.name) if function.of else ()
    return [clause for clause in function.clauses if clause.name not in theirs]


def function_rows(function):
    """The rows of a function: its comment with the clauses that have none, and each clause that has one."""
    own = own_clauses(function)
    bare = [clause for clause in own if not clause.comment]
    if not own:
        return
    doc = " ".join(function.doc) or (f"As `{function.of}::{function.name}`, and besides:" if function.of else "")
    yield from rows_of(f"`{function.path}`", doc, clause_cell(bare))
    for clause in own:
        if clause.comment:
            name = f"`{clause.name}`" if clause.name else f"its `{clause.keyword}`"
            yield from rows_of("", comment_of(clause), f"asks for {name}" if clause.keyword == "requires" and clause.name else name)


def is_law_of_trait(text):
    """Whether a ghost member says that something is so, and isn't a word that each type of the trait fills in."""
    return bool(re.search(r"\{\s*[({]", text)) and not re.search(r"\{\s*\(?Self\)? →", text)


def trait_rows(kind):
    """The rows of a trait: its laws."""
    for name, comment, text in kind.ghosts:
        if is_law_of_trait(text) and comment:
            yield from rows_of(f"`{kind.name}`, law", " ".join(comment), f"`{name}`")


def type_rows(kind, invariant, traits, written):
    """The rows of a type: what its ghost members say, what its invariant does, which traits of the tree it meets, and what `{}` writes of it."""
    bare = [f"`{name}`" for name, comment, _ in kind.ghosts if not comment]
    said = ([f"ghost field{'s' if bare[1:] else ''} {', '.join(bare)}"] if bare else []) + (["its invariant"] if invariant else [])
    doc = " ".join(invariant[1] if invariant and invariant[1] else kind.doc)
    if said:
        yield from rows_of(f"`{kind.name}`", doc, "; ".join(said))
    for name, comment, _ in kind.ghosts:
        if comment:
            yield from rows_of(f"`{kind.name}`", " ".join(comment), f"ghost field `{name}`")
    if traits:
        yield from rows_of(f"`{kind.name}`", "Meets " + ", ".join(f"`{trait}`" for trait in traits) + ".", "")
    if written:
        yield from rows_of(f"`{kind.name}`", "What `{}` writes of it is exactly this.", "its ghost `output`")


def functions_named(crate, name):
    """The functions that a name of a crate stands for: those of a type or a trait, or one function."""
    return [function for function in sources.functions_of(crate)
            if function.owner == name and (function.is_public or function.of) or function.path == name and function.is_public]


def kind_in(crate, name):
    """The rows of a type or a trait of a crate, or none where the name is a function's."""
    kind = sources.kinds_of(crate).get(name)
    if not kind:
        return []
    if kind.word == "trait":
        return list(trait_rows(kind))
    invariants = sources.invariants_of(crate)
    met = [trait for of, trait in sources.met_traits(crate) if of == name and sources.has_trait(trait)]
    return list(type_rows(kind, invariants.get(name), met, sources.is_written(crate, name)))


def besides(crate, more):
    """The private functions that a page names."""
    for name in more:
        found = [function for function in sources.functions_of(crate) if name in (function.name, function.path)]
        if not found:
            raise sources.NotThere(f"no function {name} in {crate}")
        yield from found


def ledger(crate, more=()):
    """The table of a crate, the calls that promise nothing, and above both a sum of all clauses: where one changes, so does its page."""
    rows, called = [], []
    for name in sources.exported(crate):
        functions = functions_named(crate, name)
        rows += kind_in(crate, name) + [row for function in functions if not is_plain(function) for row in function_rows(function)]
        called += functions
    private = list(besides(crate, more))
    rows += [row for function in private for row in function_rows(function)]
    plain = [function for function in called if is_plain(function)]
    silent = [function for function in called if not function.clauses and not function.of]
    return ([f"<!-- clauses {sum_of(crate, called + private)} -->", *(HEAD + rows if rows else [])]
            + listing("What its name says, by its `ensures`", plain) + listing("Without a clause", silent))


def sum_of(crate, functions):
    """A sum of the clauses of functions, and of the ghost members and invariants of a crate's types."""
    said = [line.strip() for function in functions for clause in function.clauses for line in clause.lines]
    said += [text for name in sources.exported(crate) if (kind := sources.kinds_of(crate).get(name)) for _, _, text in kind.ghosts]
    said += [text for name, (_, _, text) in sources.invariants_of(crate).items() if name in sources.exported(crate)]
    return hashlib.sha256(" ".join(" ".join(said).split()).encode()).hexdigest()[:8]


def is_plain(function):
    """Whether a function has neither a comment nor a clause with a name."""
    return not function.doc and not function.of and bool(function.clauses) and not any(it.name or it.comment for it in function.clauses)


def listing(what, functions):
    """A sentence that names functions, wrapped."""
    return ["", *wrapped(f"{what}: " + ", ".join(f"`{function.path}`" for function in functions) + ".")] if functions else []


def wrapped(text, columns=140):
    """A text in lines, which end between words, and never within backticks."""
    lines = [""]
    for word in re.findall(r"(?:`[^`]*`|[^\s`])+", text):
        if lines[-1] and len(lines[-1]) + len(word) >= columns:
            lines.append("")
        lines[-1] = f"{lines[-1]} {word}".strip()
    return lines


# Wrong bodies.

def count_of_edits(crate, folder):
    """How many wrong bodies stand in a folder of a crate."""
    return len(list((sources.ROOT / "crates" / crate / folder).glob("*.edit")))


def tried(crate):
    """What is tried of a crate's wrong bodies."""
    gated, others = count_of_edits(crate, "refused"), count_of_edits(crate, "wrong")
    parts = [f"The gate tries {gated} wrong {'bodies' if gated != 1 else 'body'} of this crate (`refused/`)."] if gated else []
    parts += [f"`tools/wrong_bodies {crate}` tries {others}{' more' if gated else ''} (`wrong/`)."] if others else []
    return wrapped(" ".join([*parts, f"`tools/wrong_bodies --table {crate}` prints each with what refuses it."]))


# Definitions.

def laws(file, wanted=()):
    """The table of the definitions of a file, or of these of it: what the comment above each says."""
    rows = ["| Definition | What its source says |", "|---|---|"]
    found = sources.definitions(file)
    for name in wanted or found:
        if name not in found:
            raise sources.NotThere(f"no definition {name} in {file}")
        rows += [f"| {head} | {text} |" for head, text in rows_in_two(f"`{name}`", found[name])]
    return rows


def names_table(groups):
    """The table of these definitions: groups of a crate, a file of it and names. The comment above each is its meaning."""
    rows, told = ["| Name | File | What its source says |", "|---|---|---|"], None
    for crate, file, wanted in groups:
        path = f"crates/{crate}/{file}" if file.endswith(".rt") else f"crates/{crate}/specs/{file}.antt"
        found = sources.definitions(path)
        for name in wanted:
            if name not in found:
                raise sources.NotThere(f"no definition {name} with a comment in {path}")
            for head, text in rows_in_two(f"`{name}`", found[name]):
                rows.append(f"| {head} | {'' if told == path else f'`{crate}`: `{file}`'} | {text} |")
                told = path
    return rows


def fields(file, name):
    """The table of a record's fields: the comment above each, or what it says where it has none and is short."""
    rows = ["| Field | What its source says |", "|---|---|"]
    for field, comment, said in sources.fields(file, name):
        text = comment or (f"`{said}`" if len(said) <= STATEMENT_COLUMNS else "")
        rows += [f"| {head} | {text} |" for head, text in rows_in_two(f"`{field}`", text)]
    return rows


# Calls that the program never makes.

def uncalled(crate):
    """The public functions of a crate that `main` of the program never comes to. Laws aren't among them."""
    given = sources.exported(crate)
    return [function.path for function in sources.functions_of(crate)
            if function.is_public and not function.of and (function.owner or function.name) in given
            and id(function) not in calls.reached() and not function.is_law()]


def not_called():
    """The table of these calls, a row for each crate on which the program stands."""
    lines = ["| Crate | Public, and not called |", "|---|---|"]
    for crate in sources.uses():
        found = uncalled(crate) if crate in sources.crates_below("kahnrun") else []
        if found:
            lines += [f"| {head} | {text} |" for head, text in rows_in_two(f"`{crate}`", ", ".join(f"`{path}`" for path in found))]
    return lines


def rows_in_two(head, text):
    """A text in pieces, the first of which has a head."""
    for at, piece in enumerate(pieces(text)):
        yield head if at == 0 else "", piece


# What a row of "Main contracts" names.

def unknown_names(crate, text):
    """The names in a row of main contracts that its crate doesn't have: calls, types or definitions in front of a colon, clauses behind it."""
    missing, owner = [], ""
    for part in text.split(";"):
        calls, colon, clauses = part.partition("`:")
        known = set()
        for name in re.findall(r"`([\w:]+)`", calls + ("`" if colon else "")):
            kind, _, last = name.rpartition("::")
            owner = kind or owner
            here = [function for function in sources.functions_of(crate) if function.name == last and function.owner in (owner, kind)]
            ghosts = ghosts_of(crate, name)
            known |= {clause.name for function in here for clause in function.clauses} | set(ghosts or ())
            if not here and ghosts is None and not is_defined(crate, name):
                missing.append(name)
        missing += [name for name in re.findall(r"`(\w+)`", clauses) if name not in known]
    return missing


def ghosts_of(crate, name):
    """The names of the ghost members of a type or a trait, which may be of a crate below; nothing where there is no such type."""
    for below in [crate, *sorted(sources.crates_below(crate))]:
        kind = sources.kinds_of(below).get(name)
        if kind:
            return [ghost[0] for ghost in kind.ghosts]
    return None


def is_defined(crate, name):
    """Whether a crate's `specs/` or a ghost field has this name."""
    if any(name == ghost[0] for kind in sources.kinds_of(crate).values() for ghost in kind.ghosts):
        return True
    files = (sources.ROOT / "crates" / crate / "specs").rglob("*.antt")
    return any(re.search(rf"\b{re.escape(name)} :", file.read_text(encoding="utf-8")) for file in files)
