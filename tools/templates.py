"""The programs that the gate doesn't prove: those of bench/crates, which only measure, and those of tables, which run tables of cases.

A source of Rattle may stand in a crate of crates.txt alone. So these programs are no crates: their sources have names that end in
`.template`, and each has a line in its home's file `lines`, as crates.txt has one for each crate. Here a crate is made of one, also in a copy
of the tree.

Those of tables are libraries, with a function `run_program`. One program is made of them, which runs the one that its first word names: so
what they all stand on is read and compiled once. Beside them stands a library that they share (`case_table`), which has no such function.
They may be made one program with kahnrun too, which then is what runs where the first word names none of them. In that program are those of
bench/crates that measure what their second word names there."""

import pathlib
import shutil
import sys

ROOT = pathlib.Path(__file__).resolve().parent.parent
BENCH = ROOT / "bench/crates"
TABLES = ROOT / "tables"
ENDING = ".template"
ALL = "all_tables"      # the program that is made of those of tables
KAHNRUN = "kahnrun"     # the program with which they may be made one
RUN = "pub fn run_program"


def crate_lines(file):
    """The lines of a list of crates, by the crate's name."""
    found = {}
    for line in file.read_text().splitlines():
        name, colon, _ = line.split("#")[0].partition(":")
        if colon:
            found[name.split()[0]] = line
    return found


def home_of(name):
    """The folder in which such a program has its own, or nothing where there is no such program."""
    return next((home for home in (BENCH, TABLES) if (home / name / "src").is_dir()), None)


def line_of(name):
    """Its name, and the libraries that it names itself."""
    return crate_lines(home_of(name) / "lines")[name]


def sources_of(name):
    """Each of its sources, and where it stands in a crate."""
    folder = home_of(name) / name
    found = [path for part in ("src", "specs", "proofs") for path in sorted((folder / part).rglob(f"*{ENDING}"))]
    return {path: path.relative_to(folder).with_suffix("") for path in found}


def make_crate(name, crate):
    """Makes a crate of it in this folder."""
    for path, place in sources_of(name).items():
        (crate / place).parent.mkdir(parents=True, exist_ok=True)
        shutil.copyfile(path, crate / place)


def below(name):
    """The libraries of its home on which such a program stands."""
    lines = crate_lines(home_of(name) / "lines")
    return [it for it in lines[name].partition(":")[2].split() if it in lines]


def root_of(name):
    """The text of the source with which a library of tables begins."""
    return (TABLES / name / f"src/lib.rt{ENDING}").read_text()


def programs():
    """The programs of tables."""
    return [name for name in crate_lines(TABLES / "lines") if RUN in root_of(name)]


def call_of(name):
    """How the main function runs one of these programs."""
    is_of_any_host = home_of(name) == TABLES and f"{RUN}<" in root_of(name)
    return f"{name}::run_program({'&rt, &rt' if is_of_any_host else '&rt'})"


def main_of(names):
    """The program that runs one of these programs of tables: the one that its first word names."""
    arms = "".join(f'            "{name}" => {call_of(name)},\n' for name in names)
    return f"""#![tactic(auto)]

use std::env;

fn main(rt: HostRuntime) -> anyhow::Result<()> {{
    match env::args(&rt)?.nth(1) {{
        Some(word) => match word.as_str() {{
{arms}            _ => anyhow::bail!("no program of this name"),
        }},
        None => anyhow::bail!("the name of a program is wanted"),
    }}
}}
"""


MAIN = "fn main(rt: HostRuntime) -> ExitCode {\n"       # with which the main function of kahnrun begins

# What stands before it where other programs are one with it.
TABLE_WORDS = """fn first_word(rt: &HostRuntime) -> Option<String> {
    let mut words = std::env::args(rt).ok()?;
    words.nth(1)
}

fn ended(rt: &HostRuntime, end: anyhow::Result<()>) -> ExitCode {
    match end {
        Ok(()) => ExitCode::SUCCESS,
        Err(error) => {
            let _ = std::io::Write::write_fmt(&mut rt.stderr(), format_args!("Error: {error}\\n"));
            ExitCode::FAILURE
        }
    }
}

"""


def main_with(names, text):
    """The text of the main function of kahnrun, that runs one of these programs where the first word names it."""
    if text.count(MAIN) != 1:
        sys.exit(f"the main function of {KAHNRUN} doesn't begin with {MAIN!r} any more")
    arms = "".join(f'        Some("{name}") => return ended(&rt, {call_of(name)}),\n' for name in names)
    choice = f"    let first = first_word(&rt);\n    match first.as_deref() {{\n{arms}        _ => {{}}\n    }}\n"
    return text.replace(MAIN, TABLE_WORDS + MAIN + choice)


# The main function of a program of bench/crates that measures what its first word names, and what is made of it in a library.
MEASURES = """fn main(rt: HostRuntime) -> anyhow::Result<()> {
    match env::args(&rt)?.nth(1) {
        Some(word) => measure(&rt, &word),
"""
MEASURES_IN_LIBRARY = """pub fn run_program(rt: &HostRuntime) -> anyhow::Result<()> {
    match env::args(rt)?.nth(2) {
        Some(word) => measure(rt, &word),
"""


def measuring():
    """The programs of bench/crates that measure what their first word names."""
    return [name for name in crate_lines(BENCH / "lines") if MEASURES in (BENCH / name / f"src/main.rt{ENDING}").read_text()]


def make_measuring(name, crate):
    """Makes a library of such a program."""
    make_crate(name, crate)
    main = crate / "src/main.rt"
    (crate / "src/lib.rt").write_text(main.read_text().replace(MEASURES, MEASURES_IN_LIBRARY))
    main.unlink()


def tree_of_all(tree):
    """A copy of the tree in which the programs of tables, and those that measure, are one with kahnrun; and the name of that program."""
    names, measures = programs(), measuring()
    tree_with(names, tree)
    shutil.rmtree(tree / "crates" / ALL)
    for name in measures:
        make_measuring(name, tree / "crates" / name)
    main = tree / "crates" / KAHNRUN / "src/main.rt"
    main.write_text(main_with([*names, *measures], main.read_text()))
    lines = {**crate_lines(tree / "crates.txt"), **{name: line_of(name) for name in measures}}
    del lines[ALL]
    lines[KAHNRUN] = f"{lines[KAHNRUN].rstrip()} {' '.join([*names, *measures])} anyhow"
    (tree / "crates.txt").write_text("".join(f"{it}\n" for it in lines.values()))
    return KAHNRUN


def tree_with(names, tree):
    """A copy of the tree in which these are crates; and the name of the program there, which of programs of tables is made of them all."""
    lines = crate_lines(ROOT / "crates.txt")
    for crate in lines:
        for part in ("src", "specs", "proofs"):
            if (ROOT / "crates" / crate / part).is_dir():
                shutil.copytree(ROOT / "crates" / crate / part, tree / "crates" / crate / part)
    made = list(dict.fromkeys(it for name in names for it in [*below(name), name]))
    for name in made:
        make_crate(name, tree / "crates" / name)
    found, program = [*lines.values(), *map(line_of, made)], names[0]
    if home_of(names[0]) == TABLES:
        program = ALL
        (tree / "crates" / ALL / "src").mkdir(parents=True)
        (tree / "crates" / ALL / "src/main.rt").write_text(main_of(names))
        found.append(f"{ALL}: {' '.join(names)} anyhow")
    (tree / "crates.txt").write_text("".join(f"{it}\n" for it in found))
    return program
