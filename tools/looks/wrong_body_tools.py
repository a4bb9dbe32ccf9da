"""Which wrong bodies are tried, and what is told of each."""

import re

from looks.answers import tool, wrong_bodies


class Chosen:
    """A tree of two crates with wrong bodies, the upper one over the lower one, of which none is handed to the prover."""

    def __init__(self, room):
        self.tree, self.records, self.logic, self.faults = room / "chosen", room / "records", "a logic", {}
        self.module = tool("wrong_bodies")      # (another one than that of the gate's own wrong bodies, for what follows)
        self.module.refusals = lambda top, name, crates, edits: [(it.stem, self.faults.get(it.stem)) for it in edits]
        for place in ("low/src/lib.rt", "high/src/lib.rt", "low/refused/a.edit", "low/refused/b.edit", "low/refused/c.edit", "high/refused/d.edit",
                      "high/refused/e.edit"):
            self.write(place, place)
        (self.tree / "crates.txt").write_text("low:\nhigh: low\n")

    def write(self, place, text):
        path = self.tree / "crates" / place
        path.parent.mkdir(parents=True, exist_ok=True)
        path.write_text(text)

    def choices(self, every=False):
        crates = self.module.libraries(self.tree)
        return crates, self.module.chosen(self.tree, ["low", "high"], crates, every, self.logic, self.records)

    def tried(self, every=False):
        """How many edits of the lower crate and of the upper one are tried now."""
        crates, chosen = self.choices(every)
        self.module.gated(self.tree, chosen, crates)
        return tuple(len(chosen[name].edits) for name in ("low", "high"))


def check_choosing(checks, room):
    """Which wrong bodies the gate tries: of each crate one, and all where the crate or one below it has changed since all were refused."""
    chosen = Chosen(room)
    checks.note("wrong bodies: nothing is recorded", None if chosen.tried() == (1, 1) and not chosen.records.exists() else "others are tried")
    chosen.faults["e"] = "NOT REFUSED"
    fine = chosen.tried(every=True) == (3, 2) and [path.name for path in chosen.records.iterdir()] == ["low"]
    checks.note("wrong bodies: all are asked for, and one isn't refused", None if fine else "others are tried or recorded")
    chosen.faults.clear()
    checks.note("wrong bodies: all are asked for", None if chosen.tried(every=True) == (3, 2) and chosen.tried() == (1, 1) else "others are tried")

    def step(name, wanted, change):
        """Behind a change so many are tried, and the next time one of each."""
        change()
        found = [chosen.tried(), chosen.tried()]
        checks.note(f"wrong bodies: {name}", None if found == [wanted, (1, 1)] else str(found))

    step("the upper crate is another one", (1, 2), lambda: chosen.write("high/proofs/Lib.antt", "a proof"))
    step("the lower crate is another one", (3, 2), lambda: chosen.write("low/src/lib.rt", "other text"))
    step("the lower crate's edits are others", (3, 1), lambda: chosen.write("low/refused/a.edit", "another edit"))
    step("the kit's logic is another one", (3, 2), lambda: setattr(chosen, "logic", "another logic"))
    step("all is as it was", (1, 1), lambda: setattr(chosen, "logic", "a logic"))
    chosen.write("low/src/lib.rt", "a third text")
    chosen.faults["a"] = "NOT REFUSED"
    found = [chosen.tried(), chosen.tried()]
    checks.note("wrong bodies: one isn't refused any more", None if found == [(3, 2), (3, 1)] else str(found))
    edits = chosen.choices(every=True)[1]["low"].edits
    crates, choices = chosen.choices()
    missed = [(name, fault) for name, _, fault in chosen.module.gated(chosen.tree, choices, crates, iter(["other", "high"])) if fault]
    fine = missed == [("low", "the crate wasn't proved")] * len(choices["low"].edits)
    checks.note("wrong bodies: a crate that isn't proved", None if fine else str(missed))
    turns = {chosen.module.in_turn(edits, "low", f"commit {k}").stem for k in range(100)}
    checks.note("wrong bodies: each has its turn", None if turns == {"a", "b", "c"} else str(turns))
    told = chosen.module.told_of(chosen.choices()[1])
    wanted = "4 of 5 wrong bodies: all of a crate changed since the record, one in turn of a crate as recorded"
    checks.note("wrong bodies: what is told of them", None if told == wanted else told)


def kept_by_check(folder, name, heads):
    """A folder that a check would keep of a crate of this name: for each module the lines at its head."""
    modules = folder / "antt-checked-81_0.0.0"
    modules.mkdir(parents=True)
    for module, lines in heads.items():
        text = "".join(f"--@ {line}\n" for line in ["antt-checked 81", *lines, "body 9"])
        (modules / f"Rattle-{name}-proofs.{module}.oantt").write_text(text + "--@ refused in what isn't a head")
    return folder


def check_telling(checks, room):
    """What is told of a wrong body by what a check has kept: that its function is refused, or nothing where something else is, or nothing is."""
    skipped, refused = 'skipped [{"name":"x","spent":null}]', 'refused ["returns"]'
    good = {f"{it}.Met": [f"imports-written Rattle-low-proofs.{it}.Statement Rattle-low-proofs.{it}.Proof"] for it in ("a.f", "a.g")}
    met_f = {"a.f.Met": [*good["a.f.Met"], skipped]}
    both = {**met_f, "a.g.Met": [*good["a.g.Met"], skipped]}
    cases = [("its proof is refused", ["low::a::f"], {**good, **met_f, "a.f.Proof": [refused], "Lemmas": []}, [None]),
             ("its answers are refused", ["low::a::f"], {**good, **met_f, "a.f.Answers": [refused]}, [None]),
             ("nothing is refused", ["low::a::f"], good, None),
             ("a file of lemmas is refused", ["low::a::f"], {**good, **met_f, "Lemmas": [refused], "a.f.Proof": [skipped]}, None),
             ("it and a file of lemmas are refused", ["low::a::f"], {**good, **met_f, "Lemmas": [refused], "a.f.Proof": [refused]}, None),
             ("its statement is refused", ["low::a::f"], {**good, **met_f, "a.f.Statement": [refused]}, None),
             ("the proof of another is refused", ["low::a::f"], {**both, "a.g.Proof": [refused]}, None),
             ("one of two calls the other", ["low::a::f", "low::a::g"], {**both, "a.g.Proof": [refused]}, [wrong_bodies.LATER, None]),
             ("two are refused", ["low::a::f", "low::a::g"], {**both, "a.f.Proof": [refused], "a.g.Answers": [refused]}, [None, None]),
             ("its goal in a cycle of calls is refused", ["low::a::f"], {**met_f, "a.+c.Lts-f": [], "a.+c.Proof": ['refused ["f-returns"]']}, [None]),
             ("another's goal in its cycle is refused", ["low::a::f"], {**met_f, "a.+c.Lts-f": [], "a.+c.Proof": ['refused ["g-returns"]']}, None),
             ("one of two isn't refused", ["low::a::f", "low::a::g"], {**good, **met_f, "a.f.Proof": [refused]}, None)]
    for number, (name, paths, heads, wanted) in enumerate(cases):
        told = wrong_bodies.told_by(kept_by_check(room / f"kept-{number}", "low", heads), "low", paths)
        checks.note(f"wrong bodies: what is told where {name}", None if told == wanted else str(told))
    stubs = kept_by_check(room / "alone", "low", {**both, "a.f.Answers": [refused], "a.g.Proof": [refused]})
    told = wrong_bodies.told_by(stubs, "low", ["low::a::f"], is_alone=True)
    checks.note("wrong bodies: what is told of one beside functions without a body", None if told == [None] else str(told))
    told = wrong_bodies.told_by(room / "kept-6", "low", ["low::a::f"], is_alone=True)
    checks.note("wrong bodies: what is told of a right one beside functions without a body", None if told is None else str(told))
    kept = room / "kept-8"
    wrong_bodies.drop_refused(kept)
    checks.note("wrong bodies: what was refused is dropped", None if not wrong_bodies.kept_modules(kept) else "it is there")
    own = "./proofs/a/f/Answers.antt:1:1: error: no"
    texts = [("it is refused", "fn low::a::f: not proved", None), ("it has no proof", f"{own}\nfn low::a::f: no proof: `search` did not prove `r`", None),
             ("it is proved", "fn low::a::f: proved", "NOT REFUSED"), ("it doesn't compile", "src/lib.rt:1:1: error: no", "BAD EDIT"),
             ("a lemma fails", "./proofs/L.antt:1:1: error: no\nfn low::a::f: not proved", "BAD EDIT"),
             ("a clause fails", "src/lib.rt:1:1: error: no\nfn low::a::f: not proved", "BAD EDIT"),
             ("nobody knows", "fn low::a::f: could not tell", "BAD EDIT")]
    for name, text, wanted in texts:
        told = wrong_bodies.verdict("low::a::f", ["low::a::f"], 1, text)
        checks.note(f"wrong bodies: what is told where a check says that {name}", None if (told or "").partition(":")[0] == (wanted or "") else told or "refused")


LEFT_ALONE = """#![tactic(auto)]

trait Shape {
    fn area(&self) -> usize;
    fn grow(&mut self)
        ensures { self.new ≡ self.old };
}

#[cycle(even)]
#[tactic(auto, using(crate::proofs::L::l))]
fn even(n: usize) -> bool {
    odd(n)
}

#[cycle(even)]
fn odd(n: usize) -> bool {
    even(n)
}

impl Shape for Square {
    fn area(&self) -> usize
        ensures one { result ≡ 1 }

        // Behind an empty line.
        ensures two { result ≤ 2 }
    {
        if self.is_small() {
            return 1;
        }
        1
    }
    fn grow(&mut self) {}
}

fn asked(a: usize, b: usize) -> usize
    ensures { result ≡ a }
{
    other(a)
}

fn other(a: usize) -> usize {
    a
}
"""


def check_leaving_alone(checks, room):
    """Which functions of a crate are left without a body where a wrong body of one is tried, and which proofs go with them."""
    for name in ("crate", "copy"):
        for place, text in {"src/lib.rt": LEFT_ALONE, "proofs/asked/Answers.antt": "", "proofs/other/Answers.antt": "", "proofs/+even/Invariants.antt": "",
                            "proofs/SquareShape/area/Proof.antt": "", "proofs/L.antt": ""}.items():
            (room / name / place).parent.mkdir(parents=True, exist_ok=True)
            (room / name / place).write_text(text)
    copy, none = room / "copy", "#[tactic(none)]\n"

    def left(path, text=LEFT_ALONE):
        (copy / "src/lib.rt").write_text(text)
        wrong_bodies.leave_alone(copy, room / "crate", [path])
        return (copy / "src/lib.rt").read_text()

    wanted = LEFT_ALONE.replace("#[cycle(even)]\n#[tactic(auto, using(crate::proofs::L::l))]\n", none).replace("#[cycle(even)]\n", none)
    for body in ("    odd(n)\n", "    even(n)\n"):
        wanted = wanted.replace(body, "    unreachable!()\n")
    wanted = re.sub(r"        if self.is_small.*?        1\n", "        unreachable!()\n", wanted, flags=re.DOTALL)
    wanted = wanted.replace("    fn area(&self) -> usize\n", f"    {none}    fn area(&self) -> usize\n")
    alone = wanted.replace("fn other(a: usize) -> usize {\n    a\n", f"{none}fn other(a: usize) -> usize {{\n    unreachable!()\n")
    came = left("crate::asked")
    checks.note("wrong bodies: what a function calls has no body", None if came == alone else came)
    proofs = sorted(str(it.relative_to(copy / "proofs")) for it in (copy / "proofs").rglob("*.antt"))
    checks.note("wrong bodies: what a function calls has no proof", None if proofs == ["L.antt", "asked/Answers.antt"] else str(proofs))
    came = left("crate::asked", LEFT_ALONE.replace("{\n    a\n", "{\n    a + 1\n"))
    checks.note("wrong bodies: a function that is changed has its body", None if came == wanted.replace("{\n    a\n", "{\n    a + 1\n") else came)
    came = left("crate::even")
    checks.note("wrong bodies: a cycle of calls has its bodies", None if came.count("unreachable!()") == 3 and "odd(n)\n" in came and "even(n)\n" in came else came)
