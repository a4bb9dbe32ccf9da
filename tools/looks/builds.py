"""What is built for the gate alone: the programs of tables, those that measure, and the wrong bodies."""

import concurrent.futures
import re

from looks.answers import Answer, mutants, tables, wrong_bodies, TOP


def check_layout(checks):
    """The programs of tables are laid out as crates are."""
    for name in tables.libraries():
        checks.note(f"{name} is laid out", " ".join(str(path.relative_to(TOP)) for path in tables.other_layout(name)))


def check_tables(checks, program, room):
    """Each case of the programs of tables comes out as it has to, right ones and wrong ones. Those that tools/mutants runs without a wrong body
    aren't run twice."""
    names = [name for name in tables.names() if [name] not in [body.check for body in mutants.bodies()]]
    with concurrent.futures.ThreadPoolExecutor() as pool:
        faults = list(pool.map(lambda name: tables.run(name, program, room / f"{name}-data"), names))
    for name, fault in zip(names, faults):
        checks.note(f"{name}: its cases", fault)


def check_mutants(checks, program, jobs):
    """Each wrong body that no contract refuses is found by the check that has to find it, which passes without it."""
    results = mutants.faults(program, [], jobs)
    for name, fault in results:
        checks.note(name, fault)
    checks.say(f"wrong bodies that no contract refuses: {len(mutants.bodies())}")


def check_measures(checks, program):
    """The programs of bench/crates that measure run, which are built for that alone."""
    for name in tables.templates.measuring():
        checks.comes(f"{name} runs", Answer([program, name]), 0, "")
        checks.comes(f"{name} refuses a word", Answer([program, name, "nothing"]), 1, "", re.compile(r"\AError: nothing is"))


def check_wrong_bodies(checks, proved=None):
    """The wrong bodies of crates/*/refused whose turn it is are refused, over the libraries that the first stage built. Where that is at work,
    `proved` yields the name of each crate once it is proved."""
    crates = wrong_bodies.libraries(TOP)
    chosen = wrong_bodies.chosen(TOP, wrong_bodies.with_refused(TOP, crates), crates)
    for name, edit, fault in wrong_bodies.gated(TOP, chosen, crates, proved):
        checks.note(f"the wrong body {edit} of {name}", fault)
    checks.say(f"wrong bodies: {wrong_bodies.told_of(chosen)}")
