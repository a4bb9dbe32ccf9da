"""calls: to which functions `main` of the program may come, told from the texts of the sources.

A call is one of the functions that its words may mean. `Type::name(..)` and `name(..)` are told by the `use` lines of their file. Of a method by a
dot the type of what stands in front is worked out: from the types of parameters and fields, from what functions and the plainest methods of std
answer, from `let` with one of these, and from patterns over them. A type that is a parameter has the methods of its bounds, by any type that
meets them.

What can't be told so: what a closure is handed, what a `match`, an `if` or a sum comes to, and what std answers but for those methods. Such a call
counts as one of every method of its name. Nor is it told whether the call is ever made."""

import dataclasses
import functools
import re

import sources

NAME = r"[A-Za-z_]\w*"
STD_KEEPS = set("as_ref as_mut as_deref as_deref_mut clone cloned copied take borrow borrow_mut by_ref filter as_slice".split())
STD_OPENS = set("unwrap expect unwrap_or unwrap_or_default unwrap_or_else lock into_inner".split())
STD_ITEMS = set("get get_mut first first_mut last last_mut pop next nth peek next_back find pop_front pop_back max_by_key min_by_key".split())
STD_WALKS = set("iter iter_mut into_iter drain rev skip step_by chain filter skip_while take_while values values_mut".split())
STD_FAILS = set("ok_or ok_or_else map_err ok or_else".split())
# an arm of a match with a pattern that has parts
ARM = re.compile(r"([\w:]*\((?:[^()=;{}]|\([^()=;]*\)|\{[^{}=;]*\})*\)|[\w:]+\s*\{[^=;{}]*\}) =>")
POINTERS = {"Box", "Arc", "Rc", "Ref", "RefMut", "MutexGuard"}


@dataclasses.dataclass(frozen=True)
class Type:
    """A type: its crate, or nothing for one that isn't of the tree, its name, and the types that it is over. A parameter has its bounds instead."""
    crate: str
    name: str
    over: tuple = ()
    bounds: tuple = ()


UNKNOWN = None
STRING = Type("", "str")


@dataclasses.dataclass
class Scope:
    """What names mean in a file: its crate, and for each name that it imports the crate and the name there."""
    crate: str
    imported: dict


@dataclasses.dataclass
class Fields:
    """What a type is made of: its parameters with their bounds, the types of its fields as texts, and those of its variants' parts."""
    scope: Scope
    params: dict
    fields: dict
    variants: dict


# Texts.

def without_words(text):
    """A text with its strings and characters emptied, so that each bracket and dot in it is one."""
    text = re.sub(r'b?"(?:[^"\\]|\\.)*"', '""', text, flags=re.S)
    return re.sub(r"b?'(?:[^'\\]|\\.)'", "' '", text)


def closing(text, at):
    """The place behind the bracket that closes the one at a place."""
    pairs, depth = {"(": ")", "[": "]", "{": "}"}, 0
    for place in range(at, len(text)):
        depth += (text[place] in pairs) - (text[place] in pairs.values())
        if depth == 0:
            return place + 1
    return len(text)


def opening(text, at):
    """The place of the bracket that is closed in front of a place."""
    depth = 0
    for place in range(at - 1, -1, -1):
        depth += (text[place] in ")]}") - (text[place] in "([{")
        if depth == 0:
            return place
    return 0


def angled(text, at):
    """The place behind the angle bracket that closes the one at a place."""
    depth = 0
    for place in range(at, len(text)):
        if text[place] == "<":
            depth += 1
        elif text[place] == ">" and text[place - 1] not in "-=":
            depth -= 1
            if depth == 0:
                return place + 1
    return len(text)


def parts(text, mark=","):
    """The parts of a text between marks that stand in no brackets."""
    found, depth, start = [], 0, 0
    for place, sign in enumerate(text):
        depth += (sign in "([{<") - (sign in ")]}" or sign == ">" and text[place - 1] not in "-=")
        if sign == mark and depth == 0:
            found.append(text[start:place].strip())
            start = place + 1
    return [part for part in [*found, text[start:].strip()] if part]


# Names and types.

@functools.cache
def scope_of(path):
    """The scope of a file."""
    crate = path.relative_to(sources.ROOT / "crates").parts[0]
    text = re.sub(r"//.*", "", path.read_text(encoding="utf-8"))
    imported = {}
    for uses in re.findall(r"^(?:pub )?use ([^;]+);", text, re.M):
        for route in routes(" ".join(uses.split())):
            path_of, _, alias = route.partition(" as ")
            first, last = path_of.split("::")[0], path_of.split("::")[-1]
            home = crate if first in ("crate", "super", "self") else first
            imported[alias or last] = (home, last)
    return Scope(crate, imported)


def routes(text):
    """The paths of a `use`, of which some may stand in braces."""
    head, brace, rest = text.partition("{")
    if not brace:
        return [text.strip()]
    return [head + route for part in parts(rest[:rest.rindex("}")]) for route in routes(part)]


@functools.cache
def home_of(crate, name, kind):
    """The crate that has this type or this function, which may be given out by one above it; nothing where none of the tree does."""
    if crate not in sources.uses():
        return ""
    for below in [crate, *sorted(sources.crates_below(crate) - {crate})]:
        if name in (made_of(below) if kind == "type" else free_functions(below)):
            return below
    return ""


@functools.cache
def free_functions(crate):
    return {function.name for function in sources.functions_of(crate) if not function.owner}


def named(name, scope, kind):
    """The crate and the name of what a name of a file means."""
    crate, real = scope.imported.get(name, (scope.crate, name))
    return home_of(crate, real, kind), real


def bounds_in(text):
    """The parameters in angle brackets, each with the names of its bounds."""
    found = {}
    for part in parts(text):
        name, _, bounds = part.partition(":")
        found[name.strip()] = tuple(re.match(r"[\w:]*", bound.strip())[0].split("::")[-1] for bound in parts(bounds, "+"))
    return found


def params_of(heading):
    """The parameters of a heading of a block, a type or a function, with their bounds there or behind `where`."""
    at = heading.find("<")
    word = re.match(rf"[\w() ]*?\b(impl|fn {NAME}|struct {NAME}|enum {NAME}|trait {NAME})<", heading)
    found = bounds_in(heading[at + 1:angled(heading, at) - 1]) if word and word.end() == at + 1 else {}
    for name, more in bounds_in(heading.partition(" where ")[2].partition("{")[0]).items():
        found[name] = found.get(name, ()) + more
    return found


def type_of(text, scope, params, own):
    """The type that a text names; nothing where that can't be told."""
    text = re.sub(r"^(?:&|\*const |\*mut |'\w+ |mut |dyn )+", "", text.strip()).strip()
    if text.startswith("impl "):
        return Type("", "impl", (), tuple(bounds_in(f"T: {text[5:]}")["T"]))
    if text.startswith("("):
        return Type("", "tuple", tuple(type_of(part, scope, params, own) for part in parts(text[1:-1])))
    if text.startswith("["):
        return Type("", "Vec", (type_of(parts(text[1:-1], ";")[0], scope, params, own),))
    if not (word := re.match(rf"((?:{NAME}::)*)({NAME})", text)) or word[1].startswith("Self"):
        return UNKNOWN
    name = word[2]
    if name == "Self":
        return own
    if word[1][:-2] in params:
        return UNKNOWN
    if name in params:
        return Type("", name, (), params[name])
    inner = text[word.end() + 1:angled(text, word.end()) - 1] if text[word.end():word.end() + 1] == "<" else ""
    over = tuple(type_of(part, scope, params, own) for part in parts(inner) if not part.startswith("'"))
    if name in POINTERS and over:
        return over[0]
    crate, real = (crate_of(word[1], scope, name, "type"), name) if word[1] else named(name, scope, "type")
    return alias_of(crate, real) or Type(crate, real, over)


def crate_of(path, scope, name, kind):
    """The crate that has what a name behind a path means."""
    first = path.split("::")[0]
    home = scope.crate if first in ("crate", "super", "self") else scope.imported.get(first, (first, ""))[0]
    return home_of(home, name, kind)


@functools.cache
def alias_of(crate, name):
    """The type for which a name of a crate is another one, if it is. What it is over is left open."""
    for path in sources.files_of(crate) if crate else ():
        if alias := re.search(rf"^(?:pub(?:\(\w+\))? )?type {name}(<[^=]*>)? = (.*);", path.read_text(encoding="utf-8"), re.M):
            return type_of(alias[2], scope_of(path), {}, UNKNOWN)
    return UNKNOWN


@functools.cache
def made_of(crate):
    """The types and traits of a crate, each with what it is made of."""
    found = {}
    for path in sources.files_of(crate):
        text = without_words(re.sub(r"//.*", "", path.read_text(encoding="utf-8")))
        for kind in re.finditer(rf"^(?:pub(?:\(\w+\))? )?(struct|enum|trait|type) ({NAME})", text, re.M):
            heading = re.match(r"[^;{(]*", text[kind.start():])[0]
            at = kind.start() + len(heading)
            body = text[at + 1:closing(text, at) - 1] if text[at:at + 1] in "({" else ""
            fields, variants = {}, {}
            if kind[1] == "enum":
                variants = dict(variant_of(part) for part in parts(re.sub(r"#\[.*?\]", "", body)))
            elif kind[1] == "struct":
                fields = fields_in(body, text[at:at + 1] == "(")
            found[kind[2]] = Fields(scope_of(path), params_of(" ".join(heading.split())), fields, variants)
    return found


def fields_in(text, by_place):
    """The types of fields as texts: by their names, or by their places."""
    clean = [re.sub(r"#\[.*?\]|pub(\(\w+\))? ", "", part).strip() for part in parts(text)]
    if by_place:
        return {str(place): part for place, part in enumerate(clean)}
    return {name.strip(): kind.strip() for name, colon, kind in (part.partition(":") for part in clean) if colon and not name.startswith("ghost ")}


def variant_of(text):
    """A variant: its name, and the types of its parts."""
    name = re.match(NAME, text.strip())
    rest = text.strip()[name.end():].strip() if name else ""
    return (name[0] if name else ""), fields_in(rest[1:-1], rest.startswith("(")) if rest[:1] in ("(", "{") else {}


# What a call may be.

@dataclasses.dataclass
class Place:
    """A function with what its words mean: its scope, its own type, its parameters of types, and what it answers."""
    function: object
    scope: Scope
    own: Type
    params: dict
    head: str
    body: str


@functools.cache
def places():
    """Each function of the crates on which the program stands."""
    found = []
    for crate in sorted(sources.crates_below("kahnrun")):
        for path in sources.files_of(crate):
            scope = scope_of(path)
            for function in sources.source(path).functions:
                params, own = params_of(function.block), UNKNOWN
                if function.block.startswith(("trait", "pub trait")):
                    own = Type("", "Self", (), (function.owner,))
                elif function.owner:
                    behind = re.sub(r"^(?:unsafe )?impl(?:<.*?>)? (?:.*? for )?", "", re.sub(r"^(unsafe )?impl<", "impl<", function.block))
                    own = type_of(behind.partition(" where ")[0].partition("{")[0], scope, params, UNKNOWN)
                    own = own or Type(*named(function.owner, scope, "type"))
                head, body = head_and_body(function)
                found.append(Place(function, scope, own, {**params, **params_of(head)}, head, body))
    return found


def head_and_body(function):
    """The signature of a function from `fn` on, up to its clauses, and what stands in its braces."""
    text = without_words(f"{function.head}\n{function.body}")
    at = re.search(rf"\bfn {function.name}\b", text).start()
    head = re.split(r"\b(?:requires|ensures)\*? (?:\w+ )?\{|\{|;", text[at:])[0]
    body = without_words(function.body)
    return " ".join(head.split()), body[body.find("{"):] if "{" in body else ""


@functools.cache
def by_name():
    found = {}
    for place in places():
        found.setdefault(place.function.name, []).append(place)
    return found


@functools.cache
def traits():
    """The names of the traits of the tree."""
    return {name for crate in sources.uses() for name, kind in sources.kinds_of(crate).items() if kind.word == "trait"}


@functools.cache
def supertraits(trait):
    """A trait of the tree, and those above it."""
    for crate in sources.uses() if trait in traits() else ():
        if trait in sources.kinds_of(crate):
            text = re.sub(r"//.*", "", "\n".join(path.read_text(encoding="utf-8") for path in sources.files_of(crate)))
            above = re.search(rf"\btrait {trait}(?:<[^{{]*?>)?\s*:\s*([^{{]*)\{{", text)
            return {trait}.union(*(supertraits(it.split("<")[0].strip()) for it in parts(above[1], "+"))) if above else {trait}
    return set()


def methods(kind, name):
    """The functions that a name may mean at a type; nothing where that can't be told."""
    every = by_name().get(name, [])
    if kind is UNKNOWN:
        return UNKNOWN
    if kind.bounds or not kind.crate and kind.name in ("Self", "impl"):
        traits = set().union(*(supertraits(bound) for bound in kind.bounds))
        return [it for it in every if it.function.of in traits or it.function.owner in traits and not it.function.of]
    if not kind.crate and (len(kind.name) == 1 or kind.name in ("impl", "Self")):
        return UNKNOWN
    own = [it for it in every if it.own and (it.own.crate, it.own.name) == (kind.crate, kind.name)]
    if own or not kind.crate:
        return own
    return [it for it in every if it.function.owner in met_by(kind.crate, kind.name) and not it.function.of]


@functools.cache
def met_by(crate, name):
    """The traits that a type meets, told by its methods."""
    return {it.function.of for it in places() if it.own and (it.own.crate, it.own.name) == (crate, name)}


def answer_of(place, kind):
    """The type that a function answers, where it is called at a type."""
    at = place.head.find("(", place.head.find("fn "))
    answer = re.match(r"\s*->\s*(.*)", place.head[closing(place.head, at):])
    if not answer:
        return Type("", "()")
    return type_of(answer[1].split(" where ")[0], place.scope, place.params, place.own if place.own and not place.own.bounds else kind)


def field_of(kind, name):
    """The type of a field."""
    if kind is UNKNOWN:
        return UNKNOWN
    if kind.name == "tuple" and name.isdigit() and int(name) < len(kind.over):
        return kind.over[int(name)]
    made = made_of(kind.crate).get(kind.name) if kind.crate else None
    return part_of(kind, made, made.fields.get(name)) if made else UNKNOWN


def part_of(kind, made, text):
    """The type of a part of a type, whose parameters may be known there."""
    if text is None:
        return UNKNOWN
    params = list(made.params)
    if text in params and params.index(text) < len(kind.over) and kind.over[params.index(text)]:
        return kind.over[params.index(text)]
    return type_of(text, made.scope, made.params, kind)


def std_answer(kind, name):
    """What the plainest methods of std answer."""
    inner = kind.over[0] if kind.over else UNKNOWN
    if name in STD_WALKS and kind.name in ("Vec", "SmallVec", "VecDeque", "Iter"):
        return Type("", "Iter", (inner,))
    if name == "enumerate":
        return Type("", "Iter", (Type("", "tuple", (Type("", "usize"), inner)),))
    if name in STD_KEEPS:
        return kind
    if name in STD_OPENS:
        return inner
    if name in STD_ITEMS:
        return Type("", "Option", (kind.over[-1] if kind.name.endswith("Map") and kind.over else inner,))
    if name in STD_FAILS:
        return Type("", "Result", (inner,))
    return UNKNOWN


class Body:
    """The body of a function, with what its names are."""

    def __init__(self, place):
        self.place = place
        self.text = place.body
        self.known = {}
        at = place.head.find("(", place.head.find("fn "))
        for part in parts(place.head[at + 1:closing(place.head, at) - 1]):
            name, colon, kind = part.partition(":")
            if colon:
                self.known.setdefault(name.removeprefix("mut ").strip(), []).append((-1, lambda kind=kind: self.read(kind)))
        self.note_locals()

    def read(self, text):
        return type_of(text, self.place.scope, self.place.params, self.place.own)

    def note_locals(self):
        """Notes each variable with the place from which on it is one, and how its type is worked out."""
        text = self.text
        for it in re.finditer(rf"\blet (?:mut )?({NAME})(?:: ([^=;]+?))? = ", text):
            stated, end = it[2], self.end_of(it.end(), ";")
            self.note(it[1], end, (lambda stated=stated: self.read(stated)) if stated else lambda a=it.end(), b=end: self.type_at(a, b))
        for it in re.finditer(r"\blet ((?:[\w:]+)?\s*[({][^=;]*?[)}]) = ", text):
            end = min(self.end_of(it.end(), ";"), self.end_of(it.end(), "{"))
            otherwise = re.search(r" else\b", text[it.end():end])
            end = it.end() + otherwise.start() if otherwise else end
            self.note_pattern(it[1], end, lambda a=it.end(), b=end: self.type_at(a, b))
        for it in re.finditer(r"\bfor (.+?) in ", text):
            end = self.end_of(it.end(), "{")
            self.note_pattern(it[1], end, lambda a=it.end(), b=end: self.walked(self.type_at(a, b)))
        for it in ARM.finditer(text):
            self.note_pattern(it[1], it.end(), lambda at=it.start(): self.matched(at))

    def note(self, name, at, kind):
        self.known.setdefault(name, []).append((at, kind))

    def note_pattern(self, text, at, whole):
        """Notes the variables of a pattern, by the type of the whole."""
        text = re.sub(r"^(?:&|ref |mut )+", "", text.strip())
        if re.fullmatch(NAME, text):
            return self.note(text, at, whole) if text[0].islower() else None
        head = re.match(r"([\w:]*)\s*([({])", text)
        if not head:
            return None
        inner, by_name = text[head.end():closing(text, head.end() - 1) - 1], head[2] == "{"
        for place, part in enumerate(parts(inner)):
            field, colon, below = part.partition(":") if by_name else (str(place), ":", part)
            self.note_pattern(below if colon else field, at, lambda field=field.strip(), path=head[1]: self.taken(whole(), path, field))
        return None

    def taken(self, kind, path, field):
        """The type of a part of a pattern over a type."""
        if path in ("Some", "Ok") and kind:
            return kind.over[0] if kind.over else UNKNOWN
        if path == "Err" and kind:
            return kind.over[1] if len(kind.over) > 1 else UNKNOWN
        if not path:
            return field_of(kind, field)
        owner, _, variant = path.rpartition("::")
        kind = self.read(owner) if owner else kind if variant not in ("Self",) else self.place.own
        made = made_of(kind.crate).get(kind.name) if kind and kind.crate else None
        if not made:
            return UNKNOWN
        return part_of(kind, made, made.variants.get(variant, made.fields if not owner else {}).get(field))

    def walked(self, kind):
        """What a loop over a type hands out."""
        return kind.over[0] if kind and kind.name in ("Vec", "Iter", "SmallVec", "VecDeque", "Option") and kind.over else UNKNOWN

    def matched(self, at):
        """The type of what is matched by an arm."""
        depth = 0
        for place in range(at - 1, -1, -1):
            depth += (self.text[place] in ")]}") - (self.text[place] in "([{")
            if depth < 0:
                found = re.search(r"\bmatch\s+((?:(?!\bmatch\b)[^;{}])*)$", self.text[:place])
                return self.type_at(found.start(1), place) if found else UNKNOWN
        return UNKNOWN

    def end_of(self, at, mark):
        """Where an expression ends, at a mark outside of brackets."""
        place = at
        while place < len(self.text) and self.text[place] != mark:
            if self.text[place] in ")]}":
                return place
            place = closing(self.text, place) if self.text[place] in "([{" else place + 1
        return place

    def local(self, name, at):
        """The type of a variable at a place."""
        before = [it for it in self.known.get(name, ()) if it[0] < at]
        return max(before, key=lambda it: it[0])[1]() if before else UNKNOWN

    def type_at(self, at, end):
        """The type of the expression between two places; nothing where that can't be told."""
        text = self.text[at:end]
        start = len(text) - len(text.lstrip("&* \n"))
        start += len(re.match(r"(?:mut )?", text[start:])[0])
        kind, place = self.first(at + start)
        while kind is not UNKNOWN and place < end:
            suffix = re.compile(rf"\s*(?:\.({NAME}|\d+)(?:::<[^()]*?>)?(\()?|(\?)|(\[))").match(self.text, place, end)
            if not suffix:
                return kind if not self.text[place:end].strip() else UNKNOWN
            place = suffix.end()
            if suffix[2]:
                kind, place = self.answered(kind, suffix[1]), closing(self.text, place - 1)
            elif suffix[1]:
                kind = field_of(kind, suffix[1])
            elif suffix[3]:
                kind = kind.over[0] if kind.over else UNKNOWN
            else:
                end_of_index = closing(self.text, place - 1)
                kind = kind.over[0] if kind.over and ".." not in self.text[place:end_of_index] else kind
                place = end_of_index
        return kind

    def first(self, at):
        """The type of what an expression begins with, and the place behind it."""
        if self.text[at:at + 1] == "(":
            end = closing(self.text, at)
            return self.type_at(at + 1, end - 1), end
        word = re.compile(rf"((?:{NAME}(?:::<[^()]*?>)?::)*)({NAME})(?:::<[^()]*?>)?(\s*[({{!])?").match(self.text, at)
        if not word or (word[3] or "").strip() == "!":
            return (STRING if self.text[at:at + 1] == '"' else UNKNOWN), len(self.text)
        sign, path = (word[3] or "").strip(), re.sub(r"::<[^()]*?>", "", word[1])[:-2]
        end = closing(self.text, word.end() - 1) if sign else word.end()
        if sign == "{" and word[2][0].isupper() and not path:
            return self.read(word[2]), end
        end = end if sign == "(" else word.end() - len(word[3] or "")
        if sign != "(":
            return (self.place.own if word[2] == "self" else self.local(word[2], at)) if not path else UNKNOWN, end
        if word[2] in ("Some", "Ok", "Err") and not path:
            return UNKNOWN, end
        found = self.meant(path, word[2])
        kind = self.read(path) if path and path[0].isupper() else UNKNOWN
        if found == [] and kind and word[2] in ("new", "default", "with_capacity"):
            return kind, end
        return answer_of(found[0], kind) if found else UNKNOWN, end

    def answered(self, kind, name):
        """What a method answers at a type."""
        found = methods(kind, name)
        if found:
            return answer_of(found[0], kind)
        return UNKNOWN if kind.crate or kind.bounds else std_answer(kind, name)

    def meant(self, path, name):
        """The functions that a name behind a path may mean."""
        if not path or path[0].islower() and path not in self.place.params:
            scope = self.place.scope
            crate, real = (crate_of(path, scope, name, "function"), name) if path else named(name, scope, "function")
            return [it for it in by_name().get(real, []) if not it.function.owner and it.scope.crate == crate]
        last = path.split("::")[-1]
        return methods(Type("", "Self", (), (last,)) if last in traits() else self.read(last), name)

    def calls(self):
        """The functions that the body may call, or hands on as values."""
        found = []
        for it in re.finditer(rf"(?:((?:{NAME}(?:::<[^()]*?>)?::)+)|(\.)\s*)?\b({NAME})(?=(?:::<[^()]*?>)?\()", self.text):
            name, path = it[3], re.sub(r"::<[^()]*?>", "", it[1] or "")[:-2]
            if it[2]:
                may = methods(self.receiver(it.start(2)), name)
                found += [one for one in by_name().get(name, []) if one.function.has_self] if may is UNKNOWN else may
            else:
                may = self.meant(path, name)
                found += [one for one in by_name().get(name, []) if one.function.owner] if may is UNKNOWN else may
        for it in re.finditer(rf"((?:{NAME}::)+)({NAME})\b(?!\(|::)", self.text):
            found += self.meant(it[1][:-2], it[2]) or []
        for name in sources.BARE.findall(self.text):
            if name not in self.place.function.locals:
                found += self.meant("", name) or []
        return found

    def receiver(self, dot):
        """The type of what stands in front of a dot."""
        at = dot
        while True:
            at -= len(self.text[:at]) - len(self.text[:at].rstrip())
            before = self.text[:at]
            if before.endswith("?"):
                at -= 1
                continue
            if before.endswith((")", "]")):
                at = opening(self.text, at)
                before = self.text[:at]
            word = re.search(rf"(?:(?:{NAME}(?:::<[^()]*?>)?::)*{NAME}|\b\d+)(?:::<[^()]*?>)?$", before)
            at = word.start() if word and word[0] not in ("match", "if", "in", "return", "while", "let", "mut", "else") else at
            ahead = self.text[:at].rstrip()
            if not ahead.endswith(".") or ahead.endswith(".."):
                return self.type_at(at, dot)
            at = len(ahead) - 1


@functools.cache
def reached():
    """The functions that `main` of the program may come to."""
    # what std calls of its own traits has no call in a source
    left = [it for it in places() if it.function.of and it.function.of not in traits() or it.function.name == "main"]
    found = {id(it.function) for it in left}
    while left:
        here = left.pop()
        for called in Body(here).calls():
            for it in [called, *same_of_trait(called)]:
                if id(it.function) not in found:
                    found.add(id(it.function))
                    left.append(it)
    return found


def same_of_trait(place):
    """Where a method is one of a trait of the tree, the trait's own; and where it is the trait's own, those of all types."""
    function = place.function
    if function.of:
        return [it for it in by_name()[function.name] if it.function.owner == function.of and not it.function.of]
    return [it for it in by_name()[function.name] if it.function.of == function.owner] if function.owner in traits() else []
